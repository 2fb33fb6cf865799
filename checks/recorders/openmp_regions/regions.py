#!/usr/bin/env python3
"""Records random OpenMP regions and compares each recording with the structure that it must have.

    regions.py [COUNT] [--from SEED] [--with FEATURE,..] [--keep FOLDER]

COUNT programs are drawn from the seeds from SEED on, compiled, run with the recorder and judged by spanprof. Of a
program that fails the source, the log and the texts are kept: in FOLDER, with a smaller program that fails too, or
else in a new folder, whose name is printed. The times of its regions and of the whole program have to be legal too,
where spanprof_large is there. SPANPROF names the program (crates/spanprof/out/spanprof), SPANPROF_LARGE that one,
RECORDER the recorder's library, LLVM its version. Status 1: something was wrong.
"""
import argparse
import os
import shlex
import shutil
import sys
import tempfile
from collections import Counter
from concurrent.futures import ThreadPoolExecutor
from dataclasses import replace

import toolchain
from draw import FEATURES, SHAPES, draw
from shrink import shrink
from verdict import judge
from write_c import write_c

TOP = os.path.dirname(os.path.dirname(os.path.dirname(os.path.dirname(os.path.abspath(__file__)))))
SHRINKING_TRIES = 150
FAULTS = ("wrong", "refused")  # of the recorder: these verdicts fail the check


def words():
    parser = argparse.ArgumentParser(description=__doc__, formatter_class=argparse.RawDescriptionHelpFormatter)
    parser.add_argument("count", nargs="?", type=int, default=100)
    parser.add_argument("--from", dest="first", type=int, default=1, metavar="SEED")
    parser.add_argument("--with", dest="always", default="", metavar="FEATURE,..")
    parser.add_argument("--keep", metavar="FOLDER")
    parser.add_argument("--jobs", type=int, default=2)
    parser.add_argument("--no-shrinking", action="store_true")
    chosen = parser.parse_args()
    unknown = set(filter(None, chosen.always.split(","))) - set(FEATURES) - set(SHAPES)
    if unknown:
        parser.error("no feature %s; there are %s" % (", ".join(unknown), ", ".join(FEATURES + SHAPES)))
    return chosen


def find_tools():
    top_program = os.path.join(TOP, "crates/spanprof/out/spanprof")
    return toolchain.Tools(
        os.path.abspath(os.environ.get("RECORDER", os.path.join(TOP, "tools/openmp_recorder/librecorder.so"))),
        shlex.split(os.environ.get("SPANPROF", top_program)), toolchain.newest(os.environ.get("LLVM", "")))


def judge_drawn(tools, drawn, runs=1, kept=None):
    """The verdict on a program; what a failing run left is copied to the folder `kept`."""
    with tempfile.TemporaryDirectory() as folder:
        try:
            verdict = judge(tools, drawn, folder, runs)
        except toolchain.Refused as refused:
            return "compiler", "%s: %s" % (drawn.compiler, refused)
        if kept and verdict[0] in FAULTS:
            shutil.copytree(folder, kept, dirs_exist_ok=True)
        return verdict


def smallest(tools, drawn, verdict):
    """A smaller program with the same verdict; each candidate is run several times."""
    def still_fails(statements):
        return judge_drawn(tools, replace(drawn, statements=statements), 3)[0] == verdict
    return replace(drawn, statements=shrink(drawn.statements, still_fails, SHRINKING_TRIES))


def kept_folder(folder, drawn):
    return os.path.join(folder, "seed_%d" % drawn.seed)


def report(tools, drawn, verdict, reported, folder, has_to_shrink):
    print("seed %d %s: %s" % (drawn.seed, verdict, reported), flush=True)
    if verdict not in FAULTS:
        return
    kept = kept_folder(folder, drawn)
    print("  kept in " + kept, flush=True)
    if has_to_shrink:
        small = smallest(tools, drawn, verdict)
        with open(os.path.join(kept, "smaller.c"), "w", encoding="utf-8") as file:
            file.write("// %s\n" % reported.replace("\n", " ") + write_c(small.statements))


def main():
    chosen = words()
    tools = find_tools()
    always = [word for word in chosen.always.split(",") if word]
    seeds = range(chosen.first, chosen.first + chosen.count)
    counts = Counter()
    folder = chosen.keep or os.path.join(tempfile.gettempdir(), "openmp_regions.%d" % os.getpid())
    with ThreadPoolExecutor(chosen.jobs) as pool:
        drawn = [draw(seed, always) for seed in seeds]
        judged = pool.map(lambda one: judge_drawn(tools, one, 1, kept_folder(folder, one)), drawn)
        for i, (one, (verdict, reported)) in enumerate(zip(drawn, judged)):
            counts[verdict] += 1
            if verdict != "right":
                report(tools, one, verdict, reported, folder, chosen.keep and not chosen.no_shrinking)
            if sys.stdout.isatty():
                print("\r%d of %d" % (i + 1, chosen.count), end="", flush=True)
    print("%d random programs: %d wrong, %d refused by spanprof, %d that the runtime fails on, %d not compiled" % (
        chosen.count, counts["wrong"], counts["refused"], counts["runtime"], counts["compiler"]))
    return 1 if any(counts[fault] for fault in FAULTS) or counts["right"] == 0 else 0


if __name__ == "__main__":
    sys.exit(main())
