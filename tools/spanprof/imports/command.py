"""spanprof import: the tasks of another tool as a recording, and what more threads would bring."""
import argparse
import os

from spanprof.answers import Answers, numbers_of, places
from spanprof.command import Console, Fault, Version, end_with
from spanprof.diagnosis.sentences import shortened
from spanprof.head import counted, lasting
from spanprof.imports.folder import write
from spanprof.imports.formats import FORMATS, format_of, read
from spanprof.program_text import TextFile, where
from spanprof.recording import ENDING, TEXT, given_text

CONSOLE = Console("spanprof-import")
DESCRIPTION = """Makes a recording of what another tool has written: a log of ninja with the output of `ninja -t graph`,
a trace in Chrome's JSON with flows, or the file tasks.rec of StarPU. Prints work, span, critical path, and greedy
schedules on more threads."""
AFTER = "Exit status 1: a file is missing or damaged, or its tasks wait for each other in a cycle; 2: wrong arguments."
THREADS = 4, 16, 64
MOST_PLACES, LONGEST_NAME = 3, 60


def parse(words):
    parser = argparse.ArgumentParser(prog="spanprof-import", description=DESCRIPTION, epilog=AFTER, allow_abbrev=False,
                                     usage="%(prog)s [options] FILE [GRAPH]")
    add = parser.add_argument
    add("file", metavar="FILE", help=".ninja_log, a trace (also packed by gzip), or tasks.rec; - is standard input")
    add("graph", metavar="GRAPH", nargs="?", help="with .ninja_log: what `ninja -t graph` prints; - is standard input")
    add("--out", metavar="NAME", help="write the recording NAME.spanprof (default: after FILE)")
    add("--force", action="store_true", help="replace a recording of this name")
    add("--from", dest="form", choices=FORMATS, help="the format of FILE (default: by what it begins with)")
    add("--process", metavar="PID", help="of a trace take this process alone")
    add("--version", action=Version)
    chosen = parser.parse_intermixed_args(words)   # GRAPH may stand behind options
    if chosen.out is not None and not os.path.basename(chosen.out):
        parser.error("--out %s: the name of a recording, and no folder" % (chosen.out or "''"))
    return chosen


def name_of(path):
    """The recording's, after the file: `ninja_log` of .ninja_log."""
    return os.path.basename(path).lstrip(".").partition(".")[0] or "imported"


def first_line(name, tasks, answers):
    """`tasks` without those that only join others."""
    head, numbers = answers.head, answers.span_numbers
    size = head.nanoseconds
    run = ", %s on %s" % (lasting(head.elapsed * size), counted(head.threads, "thread")) if head.elapsed else ""
    return "%s: %s%s; work %s, span %s" % (name, counted(tasks, "task"), run, lasting(numbers["work"] * size),
                                           lasting(numbers["span"] * size))


def curve_line(answers):
    """Where greedy schedules end on as many threads as the run had, and on others."""
    on = numbers_of(TextFile(answers.path), sorted({answers.head.threads or 1, *THREADS})).on
    ends = ["%s on %d" % (lasting((row.bound if row.end is None else row.end) * answers.head.nanoseconds), threads)
            for threads, row in on.items()]
    return "greedy schedules end at %s threads" % ", ".join(ends)


def path_line(answers):
    """The places with most of the span."""
    found = [place for place in places(answers) if place.critical_cost]
    shown = ["%s (%s)" % (shortened(where(one.name) or one.name, LONGEST_NAME),
                          lasting(one.critical_cost * answers.head.nanoseconds)) for one in found[:MOST_PLACES]]
    more = ["%d more" % (len(found) - MOST_PLACES)] * (len(found) > MOST_PLACES)
    return "critical path: " + ", ".join(shown + more)


def answer(chosen):
    chosen.file, chosen.graph = (given_text() if path == "-" else path for path in (chosen.file, chosen.graph))
    for path in filter(None, (chosen.file, chosen.graph)):
        if not os.path.isfile(path):
            raise Fault("%s: no such file" % path)
    form, more = chosen.form or format_of(chosen.file), chosen.graph or chosen.process
    if more and (form == "starpu" or (form == "ninja") != bool(chosen.graph) or chosen.graph and chosen.process):
        raise Fault("%s: a graph is for a log of ninja, and --process for a trace" % chosen.file)
    out = chosen.out or name_of(chosen.file)
    reported = read(form, chosen.file, more)
    why = write(chosen.file, out, reported, chosen.force)
    for note in reported.notes + ["without the times of the run: " + why] * bool(why):
        CONSOLE.say(note)
    answers = Answers(os.path.join(out + ENDING, TEXT))
    print(first_line(os.path.basename(out), sum(task.begin is not None for task in reported.tasks), answers),
          curve_line(answers), path_line(answers), "more: spanprof report %s" % (out + ENDING), sep="\n")


def main(words):
    end_with(CONSOLE, lambda: answer(parse(words)))
