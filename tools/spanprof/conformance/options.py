"""The words of the command line."""
import argparse
import fnmatch
import os
import re

from spanprof.command import Version
from spanprof.conformance.generate.directed import directed_files
from spanprof.conformance.generate.program import VARIANTS
from spanprof.conformance.judge.verdicts import USUAL
from spanprof.conformance.run import self_checking
from spanprof.conformance.run.launch import SETTINGS

AFTER = """tools/conformance/README.md says what is tried and judged. Exit status 0: all runs were accepted, or all
mutants caught; 1: not all; 2: nothing could be tried, or wrong arguments; 130: stopped by Ctrl-C."""
MOST_THREADS, FIVE_MINUTES = 64, 300
REPORT = "write the report to these files: .md, .xml (JUnit)"


def positive(word):
    """A whole number from 1."""
    number = int(word)
    if number < 1:
        raise argparse.ArgumentTypeError("1 is the least")
    return number


def natural(word):
    """A whole number from 0."""
    return 0 if int(word) == 0 else positive(word)


def pattern(word):
    """Of the shell's, which a directed program's name fits."""
    if not any(fnmatch.fnmatchcase(path.stem, word) for path in [*directed_files(), *self_checking.files()]):
        raise argparse.ArgumentTypeError(f"no directed or self-checking program's name fits {word}; "
                                         "`spanprof-conformance list` prints them")
    return word


def report_files(words):
    """Names of files with commas, in folders that are there: a report is written when all is done."""
    for folder in map(os.path.dirname, words.split(",")):
        if not os.path.isdir(folder or "."):
            raise argparse.ArgumentTypeError(f"there is no folder {folder}")
    return words


def delays(word):
    """A seed, and maybe places after a colon, as a report has them."""
    if not re.fullmatch(r"\d+(:([0-9a-f]+[+-](,[0-9a-f]+[+-])*)?)?", word):
        raise argparse.ArgumentTypeError("a seed, or what a report names, such as 12:1a2b+,3c4d-")
    return word


def thread_counts(words):
    """Numbers of threads, in words with commas; spanprof counts 64 at most."""
    counts = tuple(int(word) for word in words.split(","))
    if not all(0 < count <= MOST_THREADS for count in counts):
        raise argparse.ArgumentTypeError(f"numbers of threads are 1 to {MOST_THREADS}")
    return counts


def some_of(known):
    """A type of options: words of these, with commas."""
    def read(words):
        chosen = words.split(",")
        for word in chosen:
            if word not in known:
                raise argparse.ArgumentTypeError(f"{word} is none of {', '.join(known)}")
        return chosen
    return read


USAGES = {name: f"spanprof-conformance {name} [options]{more}" for name, more in (
    ("run", " --cc CC"), ("mutants", " --cc CC"), ("shrink", " --cc CC MINE.tasks"),
    ("emit", " MINE.tasks"),
    ("judge", " MINE.tasks LOG"), ("list", ""))}


def parse(calls, words=None):
    """The options of the process. `calls` are the commands by name; the one that is chosen is `call`."""
    parser = argparse.ArgumentParser(prog="spanprof-conformance", description="Tests a runtime for OpenMP tasks.",
                                     usage="%(prog)s COMMAND [options]", epilog=AFTER, allow_abbrev=False)
    parser.add_argument("--version", action=Version)
    commands = parser.add_subparsers(dest="command", required=True, prog="spanprof-conformance", metavar="COMMAND")
    for name, call in calls.items():
        of_name = commands.add_parser(name, help=call.__doc__, usage=USAGES[name], epilog=AFTER,
                                      allow_abbrev=False)
        of_name.set_defaults(call=call)
        add_options(name, of_name)
    return parser.parse_args(words)


def add_options(name, parser):
    add = parser.add_argument
    if name in ("shrink", "emit", "judge"):
        more = ", or the name of a self-checking program" if name == "emit" else ""
        add("file", help="a program text (MINE.tasks)" + more)
    if name == "judge":
        add("log", help="the log of its runs")
    if name in ("run", "mutants", "shrink"):
        add_runtime_options(name, parser.add_argument_group("the runtime"))
        add_program_options(name, parser.add_argument_group("the programs"))
        add_run_options(name, parser.add_argument_group("how they run"))
        add_result_options(name, parser.add_argument_group("the results"))
    elif name == "emit":
        add("--tasks", choices=VARIANTS, default="tied", help="how tasks are written (tied)")


def add_runtime_options(name, group):
    add = group.add_argument
    add("--cc", required=True, metavar="CC", help="the compiler and its flags, such as 'clang-19 -O2'")
    add("--preload", default="", metavar="LIBRARY",
        help="preload a library: another build of the runtime, or a sanitizer")
    if name == "mutants":
        add("--built", default="", metavar="FOLDER",
            help="runtimes built from changed sources by checks/programs/mutants, in place of entry points")


def add_program_options(name, group):
    add = group.add_argument
    if name == "shrink":
        add("--tasks", choices=VARIANTS, default="tied", help="how tasks are written (tied)")
        return
    add("--tasks", type=some_of(VARIANTS), default=list(VARIANTS), metavar="tied,untied,mixed",
        help="how tasks are written (all three; mixed: every other task is untied)")
    add("--match", type=pattern, default="*", metavar="PATTERN",
        help="only directed and self-checking programs with such names (*)")
    add("--programs", type=natural, default=20, metavar="N", help="number of random programs (20)")


def add_run_options(name, group):
    add = group.add_argument
    add("--threads", type=thread_counts, default=(2, 4) if name == "mutants" else (1, 2, 4, 16), metavar="N,..",
        help="numbers of threads (1,2,4,16; for mutants 2,4)")
    add("--runs", type=positive, default=4, metavar="N", help="runs of each program on each number of threads (4)")
    add("--settings", type=some_of(SETTINGS), default=[], metavar=",".join(SETTINGS),
        help="how programs are started (each of those for the runtime in turn)")
    add("--seed", type=natural, default=1, metavar="N",
        help="seed of the random programs and delays (1)")
    if name == "shrink":
        add("--perturb", type=delays, metavar="SEED",
            help="delay the runtime, built with -fsanitize=thread, as a report says")
    else:
        add("--perturb", type=natural, default=0, metavar="SEEDS",
            help="delay the runtime, built with -fsanitize=thread, at places that so many seeds choose (0)")
    add("--timeout", type=positive, default=10, metavar="SECONDS",
        help="a run without an event for so long counts as hung (10)")
    add("--jobs", type=positive, default=max(1, (os.cpu_count() or 1) // 2), metavar="N",
        help="programs that run at once (half as many as processors)")
    add("--seconds", type=positive, default=FIVE_MINUTES, metavar="N",
        help="limit of the test of each runtime of --built (300)" if name == "mutants" else
        "limit of the whole test (300): the most telling programs run first")


def add_result_options(name, group):
    add = group.add_argument
    add("--expected", type=lambda words: words.split(","), default=[USUAL], metavar="FILE,..",
        help="known failures, which do not count (tools/conformance/expected.txt; /dev/null: none)")
    add("--keep", default="", metavar="FOLDER", help="keep built programs there, and reuse them")
    add("--report", type=report_files, default="", metavar="FILE,..", help=REPORT)
