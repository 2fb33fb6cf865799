#!/usr/bin/env python3
"""Records programs of many tasks, and compares numbers: compare.py [NAME=NUMBER ..]; large_recordings.sh calls it.

SPANPROF_LARGE names the program, RECORDER the recorder's library, LLVM its version.
"""
import os
import shlex
import subprocess
import sys
import tempfile
import time

from whole_graph import read

HERE = os.path.dirname(os.path.abspath(__file__))
TOP = os.path.dirname(os.path.dirname(os.path.dirname(HERE)))
sys.path.append(os.path.join(TOP, "checks", "llvm"))
from recording import RECORDER, Wrong, build, made_texts  # noqa: E402

LARGE = shlex.split(os.environ.get("SPANPROF_LARGE", "")) or [TOP + "/crates/spanprof_large/out/spanprof_large"]
SECONDS = 600  # for one run
USUAL = {"tree": 18, "grid": 400, "row": 1000000}
TASKS = {"tree": lambda levels: 2 ** levels - 2, "grid": lambda side: side * side, "row": lambda count: count}


def run(words, **settings):
    """How long it took, in seconds, and what it said."""
    began = time.monotonic()
    done = subprocess.run(words, env=dict(os.environ, OMP_NUM_THREADS="4", **settings), capture_output=True, text=True,
                          timeout=SECONDS, check=True)
    return time.monotonic() - began, done.stderr


def recorded(words, out):
    return run(words, OMP_TOOL_LIBRARIES=RECORDER, SPANPROF_OUT=out)


def converted(out):
    """How long the log takes to be made a text of its region, in seconds, and what is said."""
    began = time.monotonic()
    said = made_texts(out)
    return time.monotonic() - began, said


def reported(program, path):
    """The numbers that a program tells of a text, by their names."""
    with open(path, encoding="utf-8") as text:
        done = subprocess.run(program, stdin=text, capture_output=True, text=True, check=False)
    if done.returncode:
        raise Wrong("%s: %s" % (os.path.basename(program[0]), done.stdout.strip()))
    return {name: int(value) for name, value in (line.split() for line in done.stdout.splitlines())}


def by_hand(path):
    with open(path, encoding="utf-8") as text:
        return read(text).numbers()


def compare(path, numbers):
    wanted = by_hand(path)
    for name, number in numbers.items():
        if number != wanted[name]:
            raise Wrong("%s %d, and %d by the whole graph" % (name, number, wanted[name]))
    return wanted


def try_whole(words, out, fewest):
    alone, _ = run(words)
    took, said = recorded(words, out)
    reading, news = converted(out)
    path = out + ".tasks"
    if not os.path.exists(path):
        raise Wrong("nothing is written: " + said + news)
    began = time.monotonic()
    numbers = reported(LARGE, path)
    measured = time.monotonic() - began
    compare(path, numbers)
    if numbers["tasks"] < fewest:
        raise Wrong("%d tasks of %d" % (numbers["tasks"], fewest))
    print("  %s tasks, %s segments, work %s ns, span %s ns: as the whole graph has them" % tuple(
        "{:,}".format(numbers[name]) for name in ("tasks", "segments", "work", "span")))
    print("  %.2f s alone, %.2f s recorded, %.2f s converted; %d MB, measured in %.2f s" % (
        alone, took, reading, os.path.getsize(path) // 1000000, measured), flush=True)


def main(asked):
    cases = dict((name, int(number)) for name, number in (word.split("=") for word in asked)) or USUAL
    wrong = 0
    with tempfile.TemporaryDirectory() as folder:
        program = build(os.path.join(HERE, "program.c"), folder)
        for name, number in cases.items():
            print("%s %d" % (name, number), flush=True)
            words, out = [program, name, str(number)], os.path.join(folder, name)
            try:
                try_whole(words, out, TASKS[name](number))
            except Wrong as fault:
                print("  " + str(fault))
                wrong += 1
    print("%d of %d programs wrong" % (wrong, len(cases)))
    return 1 if wrong else 0


if __name__ == "__main__":
    sys.exit(main(sys.argv[1:]))
