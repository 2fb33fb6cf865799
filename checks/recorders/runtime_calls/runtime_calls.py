#!/usr/bin/env python3
"""Records programs of libgomp's tests, and compares each recording with an oracle that watches the program's calls of
the runtime (libcalls.so). It prints a table, what is wrong, and why a program was refused; the status is 1 where
anything is wrong."""
import argparse
import collections
import concurrent.futures
import os
import sys
import tempfile

import testsuite
from trial import BAD, TOLD, Setting, try_program

HERE = os.path.dirname(os.path.abspath(__file__))
TOP = os.path.dirname(os.path.dirname(os.path.dirname(HERE)))
sys.path.append(os.path.join(TOP, "checks", "llvm"))
import versions  # noqa: E402


def options():
    parser = argparse.ArgumentParser(description=__doc__)
    parser.add_argument("--llvm", default="19,16", help="versions of LLVM; those that are missing are left out")
    parser.add_argument("--compilers", default="clang,gcc,gnu", help="gnu: gcc's code on gcc's own runtime")
    parser.add_argument("--most", type=int, default=10000, help="so many programs of each compiler, evenly chosen")
    parser.add_argument("--all", action="store_true", help="programs without tasks too: what they print")
    parser.add_argument("--only", default="", help="programs with this in their name")
    parser.add_argument("--jobs", type=int, default=os.cpu_count(), help="programs at a time")
    parser.add_argument("--verbose", action="store_true", help="a line for each program")
    return parser.parse_args()


def setting(words, runtime):
    return Setting(words + ["-O1"], runtime, os.path.join(TOP, "tools", "spanprof-record"),
                   os.path.join(HERE, "libcalls.so"))


def settings(compilers, there):
    """Each with what is printed of it."""
    for version in there:
        on = " on LLVM " + version.number
        if "clang" in compilers:
            yield "clang" + on, setting(version.compiler(), version.runtime)
        if "gcc" in compilers:
            yield "gcc" + on, setting(["gcc"], version.runtime)
    if "gnu" in compilers:
        yield "gcc on its own runtime", setting(["gcc"], "")


def chosen(programs, most):
    step = max(1, -(-len(programs) // most))
    return programs[::step]


def try_in_folder(given, program):
    with tempfile.TemporaryDirectory() as folder:
        return program, try_program(given, program, folder)


def try_all(given, programs, asked):
    counts = collections.Counter()
    wrong = []
    with concurrent.futures.ThreadPoolExecutor(asked.jobs) as pool:
        for program, verdict in pool.map(lambda it: try_in_folder(given, it), programs):
            counts[verdict.kind] += 1
            if asked.verbose or verdict.kind in TOLD:
                print("  %s: %s: %s" % (program.name, verdict.kind, verdict.why), flush=True)
            if verdict.kind in BAD:
                wrong.append(program.name)
    return counts, wrong


def main():
    asked = options()
    tar = testsuite.archive()
    if not tar:
        print("skipped: libgomp's tests are missing (package gcc-12-source)")
        return 0
    failed, tries, built = 0, 0, 0
    with tempfile.TemporaryDirectory() as folder:
        programs = [it for it in testsuite.programs(testsuite.unpack(tar, folder), asked.all) if asked.only in it.name]
        there = versions.asked(asked.llvm)
        for number in set(asked.llvm.split(",")) - {version.number for version in there}:
            print("left out: LLVM %s's compiler or runtime is missing (packages clang-%s, libomp-%s-dev)" % (
                number, number, number))
        for name, given in settings(asked.compilers.split(","), there):
            counts, wrong = try_all(given, chosen(programs, asked.most), asked)
            failed += len(wrong)
            tries += sum(counts.values())
            built += sum(counts.values()) - counts["not built"]
            print("%s: %s" % (name, ", ".join("%d %s" % (count, kind) for kind, count in sorted(counts.items()))),
                  flush=True)
    print("%d programs tried, %d built, %d wrong" % (tries, built, failed))
    return 1 if failed else 0


if __name__ == "__main__":
    sys.exit(main())
