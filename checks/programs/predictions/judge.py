#!/usr/bin/env python3
"""Judges what `spanprof-predict` predicts of 23 programs, and of 14 that were measured later, on the times that they
took, without a run of any: by single recordings, and by all recordings of a program together.

    checks/programs/predictions/judge.py [--table]     --table: a row for each prediction
The intervals' widths have to be those that all these programs give. Of each program as wide as the others alone give,
they have to hold in nine of ten cases.
"""
import os
import sys
from concurrent.futures import ProcessPoolExecutor

from judging import Case, held, of_estimate, summary, widths
from measured import HERE, LATER, recordings, texts, true_times

from spanprof.predict.estimate import estimate
from spanprof.predict.interval import WIDTHS
from spanprof.predict.machine import read_machine

CASES = (Case((4,), 4, 0.05, 0.15), Case((2,), 2, 0.05, 0.15), Case((1, 2), 4, 0.08, 0.20), Case((1, 2), 3, 0.08, 0.20),
         Case((2,), 4, 0.08, 0.25), Case((4,), 2, 0.08, 0.25))
COVERED = 0.9
SETS = {"23 programs": HERE, "14 later ones": LATER}


def reported(case, by_threads, program, turn, machine, true):
    """Of lists of recordings by threads."""
    one = estimate({threads: by_threads[threads] for threads in case.of}, machine, case.threads)
    return of_estimate(one, program, turn, case, true, min(len(by_threads[threads]) for threads in case.of))


def judge(words):
    """Of one program: by each recording, and by all of them, of turn 0."""
    program, texts_of, true, machine = words
    by_turn = dict(sorted(recordings(texts_of).items()))
    several = {turn: {threads: [one] for threads, one in found.items()} for turn, found in by_turn.items()}
    all_of = {threads: [found[threads] for found in by_turn.values()] for threads in next(iter(by_turn.values()))}
    return [reported(case, found, program, turn, machine, true[program, case.threads])
            for case in CASES for turn, found in {**several, 0: all_of}.items()]


def judged_in(folder, pool):
    machine, true = read_machine(folder / "machine.json"), true_times(folder)
    todo = [(program, texts_of, true, machine) for program, texts_of in texts(folder).items()]
    return [one for found in pool.map(judge, todo) for one in found]


def table(judged):
    yield "%-24s %s %-22s %10s %10s %8s  %s" % (
        "program", "round", "case", "true ms", "predicted", "error", "from .. to")
    for one in judged:
        yield "%-24s %5s %-22s %10.3f %10.3f %+7.1f%%  %.3f .. %.3f%s" % (
            one.program, one.turn or "all", one.case.name, one.true / 1e6, one.time / 1e6, 100 * one.error,
            one.low / 1e6, one.high / 1e6, "" if one.is_covered else "  not covered")


def line(case, of_case, name):
    """What was reached, and whether that is enough."""
    median, nine, worst, covered = summary(of_case)
    is_met = median <= case.median and nine <= case.nine_of_ten
    return is_met, "%s, %s: median %.1f %% (%.0f), nine of ten %.1f %% (%.0f), worst %.1f %%, covered %d of %d" % (
        name, case.name, *(100 * number for number in (median, case.median, nine, case.nine_of_ten, worst)), covered,
        len(of_case))


def lines(judged, name):
    """For each case, by single recordings and by all."""
    for case in CASES:
        of_case = [one for one in judged if one.case == case]
        yield line(case, [one for one in of_case if one.turn], name + ", one recording")
        yield line(case, [one for one in of_case if not one.turn], name + ", all recordings")


def main(words):
    with ProcessPoolExecutor(len(os.sched_getaffinity(0))) as pool:
        judged = {name: judged_in(folder, pool) for name, folder in SETS.items()}
    every = [one for found in judged.values() for one in found]
    if words == ["--table"]:
        print("\n".join(table(every)))
    given, count = widths(every), held(every)
    all_lines = [one for name, found in judged.items() for one in lines(found, name)]
    all_lines += [(all(WIDTHS[kind] == one for kind, one in given.items()), "widths of all: %s" % given),
                  (count >= COVERED * len(every),
                   "intervals with the truth, as wide as other programs give: %d of %d" % (count, len(every)))]
    for is_met, words_of in all_lines:
        print("%s  %s" % ("ok    " if is_met else "FAILED", words_of))
    return 0 if all(is_met for is_met, _ in all_lines) else 1


if __name__ == "__main__":
    sys.exit(main(sys.argv[1:]))
