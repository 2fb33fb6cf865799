#!/usr/bin/env python3
"""Builds programs with a known cause and repaired ones, times both, records the first, and compares what the diagnosis
says with what is known.

    run.py --compiler COMPILER [--flags=WORDS] [--programs FOLDER] [--around=WORDS] [--keep FOLDER] [--lines FILE]
        [--wrong N] [KIND ..]
    run.py --again FOLDER ..
All are built first. `--around` has words in front of what times and records one program, FOLDER gets the recordings,
and FILE the lines of each diagnosis. An answer is right where kind and place are, and the predicted gain is within 10
points of the measured one, which is compared where the machine was quiet. The status is 0 where at most N answers are
wrong, none without it.
"""
import argparse
import json
import os
import shlex
import subprocess
import sys
import tempfile

from judging import answer_of, judged
from programs import build, programs    # which adds tools to the path
from timing import Times
from spanprof.diagnosis.output import output_of
from spanprof.recording import open_recording

PATIENCE = 60       # seconds for the changes that are tried, so that a busy machine leaves none out
HERE = os.path.dirname(os.path.abspath(__file__))


def percent(number):
    return "%5.1f" % number if number is not None else "    -"


def row(program, answer, times, verdict):
    word = "ok" if verdict.is_right else "WRONG"
    place = "%s:%s" % (answer.file, "-".join(map(str, sorted(set(answer.lines))))) if answer.file else "-"
    gain = {True: "near", False: "FAR", None: "not compared"}[verdict.is_gain]
    return "%-6s %-17s %-17s %-26s gain %s predicted, %s measured, %s" % (
        word, program.name, answer.kind, place if verdict.is_place else place + " WRONG", percent(answer.gain),
        percent(times.gain), gain)


def measured(folder, name):
    with open(os.path.join(folder, name + ".json"), encoding="utf-8") as file:
        return Times(**json.load(file))


def diagnosed_again(path, program):
    """What the diagnosis says of a recording of the program."""
    return output_of(open_recording(path), [os.path.dirname(program.source)], PATIENCE)


def judge(program, folder):
    """The row of the table, the lines that a person reads, and whether the answer is right."""
    times = measured(folder, program.name)
    if not times.is_same:
        sys.exit("%s: the repaired program writes something else" % program.name)
    reported = diagnosed_again(os.path.join(folder, program.name + ".spanprof"), program)
    answer = answer_of(reported.json())
    verdict = judged(program, answer, times.gain, times.is_quiet)
    return row(program, answer, times, verdict), reported.lines(), verdict.is_right


def measure_all(chosen, options, folder):
    for program in chosen:
        build(program, options.compiler, options.flags, folder)
    for program in chosen:
        words = [sys.executable, "-B", os.path.join(HERE, "measure.py"), folder, program.name]
        subprocess.run(options.around + words, stdout=subprocess.DEVNULL, check=True)


def options_of(words):
    reader = argparse.ArgumentParser(allow_abbrev=False)
    reader.add_argument("--programs", default=HERE)
    reader.add_argument("--compiler", default="gcc")
    reader.add_argument("--flags", type=shlex.split, default=[])
    reader.add_argument("--around", type=shlex.split, default=[])
    reader.add_argument("--keep")
    reader.add_argument("--again")
    reader.add_argument("--lines")
    reader.add_argument("--wrong", type=int, default=0)
    reader.add_argument("kinds", nargs="*")
    return reader.parse_args(words)


def judge_all(chosen, options, folder):
    """How many are wrong."""
    wrong, first_lines = 0, []
    for program in chosen:
        reported, lines, is_right = judge(program, folder)
        print(reported, flush=True)
        wrong += not is_right
        first_lines += [reported, *("      " + line for line in lines), ""]
    if options.lines:
        with open(options.lines, "w", encoding="utf-8") as file:
            file.write("\n".join(first_lines))
    print("%d programs, %d wrong" % (len(chosen), wrong))
    return wrong


def main(words):
    options = options_of(words)
    chosen = programs(options.programs, options.kinds)
    if not chosen:
        sys.exit("no program of %s" % " ".join(options.kinds))
    with tempfile.TemporaryDirectory() as scratch:
        folder = os.path.abspath(options.again or options.keep or scratch)
        os.makedirs(folder, exist_ok=True)
        if not options.again:
            measure_all(chosen, options, folder)
        wrong = judge_all(chosen, options, folder)
    sys.exit(wrong > options.wrong)


if __name__ == "__main__":
    main(sys.argv[1:])
