"""spanprof-predict: the time of a recorded program on some threads."""
import argparse
import json

from spanprof.command import Console, Version, check_files, count, end_with, writing
from spanprof.predict.burden import burdened_text
from spanprof.predict.machine import machine_file, read_machine
from spanprof.predict.predictions import by_threads, predictions, text_of
from spanprof.predict.recorded import RUNTIMES
from spanprof.predict.words import as_json, burden_words, lines
from spanprof.remarks import in_json

CONSOLE = Console("spanprof-predict")
DESCRIPTION = """Predicts how long a recorded region would take on other numbers of threads, by simulating the
runtime's scheduling: a time and an interval. Of several recordings of a program, those on one number of threads give a
median, and those on different numbers show how costs grow."""
AFTER = """Run `spanprof record --calibrate` once on each machine first. Exit status 1: a file is missing, or a text has
no times; 2: wrong arguments."""
MOST_THREADS = 1024


def numbers(word):
    read = count(1, MOST_THREADS)
    return sorted({read(one) for one in word.split(",")})


def parse(words):
    parser = argparse.ArgumentParser(prog="spanprof-predict", usage="%(prog)s [options] MINE.spanprof ..",
                                     description=DESCRIPTION, epilog=AFTER, allow_abbrev=False)
    add = parser.add_argument
    add("texts", nargs="+", metavar="MINE.spanprof",
        help="recordings (of each, its region with the most code is predicted) or texts of a region")
    add("--threads", type=numbers, metavar="P,..",
        help="predict for these numbers of threads (default: as many as were recorded, and twice as many)")
    add("--runtime", choices=RUNTIMES, help="the runtime to simulate: llvm, or gnu, gcc's (default: as recorded)")
    add("-o", "--output", metavar="BURDENED.tasks",
        help="write the burdened text of the last number of threads to this file")
    add("--json", action="store_true", help="print JSON")
    add("--version", action=Version)
    return parser.parse_args(words)


def remark(one):
    return in_json("burdened text", "a burdened text, with %s for %d threads" % (
        burden_words(one.dispatch), one.threads), "work and span are of no recorded run")


def answer(chosen):
    several = [text_of(word, CONSOLE.tell) for word in chosen.texts]
    for path, *_ in several:
        check_files(path, chosen.output, "burdened text")
    recordings, machine = by_threads(several), read_machine(machine_file())
    found = predictions(recordings, machine, chosen.threads, chosen.runtime)
    if chosen.output:
        one = found[-1][0]
        with writing(chosen.output) as file:
            file.write(burdened_text(one.base.text, one.costs, remark(one)))
    reported = recordings[max(recordings)], machine, found
    print(json.dumps(as_json(*reported), indent=2) if chosen.json else "\n".join(lines(*reported)))


def main(words):
    end_with(CONSOLE, lambda: answer(parse(words)))
