"""spanprof-report: one page on a program text and its recorded run."""
import argparse
import json
import os
import sys

from spanprof.answers import Answers
from spanprof.command import Console, Fault, Progress, Version, check_files, count, end_with, percent, show, writing
from spanprof.diagnosis.output import compared, comparison_json, comparison_lines, is_slower, output_of
from spanprof.recording import open_recording, text_of
from spanprof.report.exports import folded, stacks, trace_text
from spanprof.report.page import page
from spanprof.report.view import View
from spanprof.run_json import run_json
from spanprof.time_breakdown import recorded_breakdown

DESCRIPTION = """Prints the diagnosis of a recording, and writes a page: one HTML file that needs no network. With two
recordings, compares them."""
AFTER = """Exit status 1: a file is missing, damaged or cannot be written; 2: wrong arguments; 3: slower by more than
--fail-above."""
SLOWER = 3
MOST_THREADS = 1024


def beside(text):
    """The page's name where none is given; never the text's own. Of standard input it goes to standard output."""
    if text == "-":
        return text
    stem, ending = os.path.splitext(text.rstrip(os.sep))
    return stem + ".html" if ending != ".html" else text + ".html"


def outputs(chosen):
    """The files that are asked for, and what each is."""
    asked = {"page": chosen.output, "trace": chosen.trace, "stacks": chosen.folded}
    return [(path, what) for what, path in asked.items() if path]


def arguments(words):
    parser = argparse.ArgumentParser(prog="spanprof-report", usage="%(prog)s [options] MINE.spanprof [AFTER.spanprof]",
                                     description=DESCRIPTION, epilog=AFTER, allow_abbrev=False)
    add = parser.add_argument
    add("program", metavar="MINE.spanprof", help="a recording, a program text, or - for standard input")
    add("after", metavar="AFTER.spanprof", nargs="?",
        help="a recording of the changed program: prints whether it is faster, where, and what was predicted")
    add("--fail-above", type=percent, metavar="5%", help="exit with status 3 if AFTER is slower by more than this")
    add("-o", "--output", metavar="MINE.html",
        help="write the page to this file (default: MINE.html, unless another output is asked for)")
    add("--threads", type=count(1, MOST_THREADS), metavar="P",
        help="threads of the greedy schedule (default: as many as were recorded)")
    add("--source", action="append", metavar="FOLDER",
        help="look for sources here, too (default: next to the recording, and the current folder)")
    add("--trace", metavar="FILE.json", help="write a trace for ui.perfetto.dev and speedscope.app")
    add("--folded", metavar="FILE",
        help="write the samples of calls as folded stacks for flamegraph.pl and speedscope.app")
    add("--json", action="store_true", help="print the diagnosis as JSON")
    add("--version", action=Version)
    chosen = parser.parse_args(words)
    check_words(parser, chosen)
    return chosen


def check_words(parser, chosen):
    """Ends the process where they exclude each other; the page has a name then, where it is asked for."""
    if chosen.fail_above is not None and not chosen.after:
        parser.error("--fail-above compares two recordings: name a second one")
    if chosen.after and outputs(chosen):
        parser.error("two recordings are compared in lines, or by --json")
    if not (chosen.after or outputs(chosen) or chosen.json):
        chosen.output = beside(chosen.program)
    paths = [os.path.realpath(path) for path, _ in outputs(chosen)]
    if len(set(paths)) < len(paths):
        parser.error("-o, --trace and --folded are for different files")


def write(path, text):
    with writing(path, "wb") as file:
        file.write(text.encode("utf-8", "replace"))     # a file's name may be no UTF-8


def write_the_rest(chosen, progress):
    """What was asked for; what was written is reported."""
    if chosen.json:
        answers = Answers(chosen.program)
        diagnosis = output_of(open_recording(chosen.program), chosen.source or ())
        print(json.dumps(run_json(answers, diagnosis, *recorded_breakdown(answers)), indent=2))
    view = View(chosen.program, chosen.threads, chosen.source, progress) if chosen.output or chosen.trace else None
    if chosen.trace and view.is_long:
        raise Fault("%s: the text is beyond the limits of spanprof, and has no --trace" % chosen.program)
    made = {"page": lambda: page(view, progress), "trace": lambda: trace_text(view),
            "stacks": lambda: folded(stacks(open_recording(chosen.program)))}
    for path, what in outputs(chosen):
        write(path, made[what]())
    progress.end()
    show(["spanprof-report: written: %s" % path for path, _ in outputs(chosen)])
    if chosen.output not in (None, "-") and view.diagnosis:
        show(view.diagnosis.lines(), sys.stdout)


def check(chosen):
    """Whether all files and folders are there, and none of the files would be lost."""
    for output, what in outputs(chosen) or [(None, "")]:
        check_files(chosen.program, output, what)
    for folder in chosen.source or []:
        if not os.path.isdir(folder):
            raise Fault("--source %s: no such folder" % folder)


def compare(chosen):
    """Prints what two recordings differ in; the process ends where the second is slower than it may be."""
    reported = [output_of(open_recording(path), chosen.source or ()) for path in (chosen.program, chosen.after)]
    found = compared(*reported)
    print(json.dumps(comparison_json(found), indent=2) if chosen.json else "\n".join(comparison_lines(found)))
    if is_slower(found, chosen.fail_above):
        sys.exit(SLOWER)


def answer(chosen):
    if chosen.after:
        compare(chosen)
        return
    chosen.program = text_of(chosen.program)
    check(chosen)
    write_the_rest(chosen, Progress("spanprof-report"))


def main(words):
    end_with(Console("spanprof-report"), lambda: answer(arguments(words)))
