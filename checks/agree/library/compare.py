#!/usr/bin/env python3
"""Compares what spanprof answers with what the library does, called from C and from Python.

    checks/agree/library/compare.py SPANPROF ASK SANITIZED    the last two are the program of ask.c, plain and under the
                                                        sanitizers; SPANPROF_LIBRARY names the library
The last line counts the comparisons and those that differ; the status is 0 where none did.
"""
import random
import sys
import tempfile
from concurrent.futures import ThreadPoolExecutor

import answers
import texts

sys.path.insert(0, str(texts.TOP / "tools"))
import spanprof  # noqa: E402
from comparison import Comparison  # noqa: E402

FEW = (["span"], ["slack"], ["greedy", "--threads", "3"], ["curve", "--upto", "4"])
REFUSED = (["greedy", "--threads", "0"], ["greedy", "--threads", "1025"], ["curve", "--upto", "0"],
           ["curve", "--upto", "1025"])
MANY = tuple(["greedy", "--threads", str(p)] for p in (1, 2, 8, 1024)) + (["curve", "--upto", "24"],)
MOST_WORK = 10 ** 15


class Commands(Comparison):
    """The commands of spanprof that the library answers."""

    def __init__(self, spanprof_program):
        super().__init__()
        self.program = spanprof_program

    def all_of(self, ask, name, text, words):
        self.ask = ask
        for one in words:
            self.compare(name, one, text, [self.program, *one])

    def changed(self, name, text, dice):
        """Other costs of up to three segments, and one that is nearly too large."""
        program = spanprof.parse(text)
        for _ in range(3):
            chosen = dice.sample(range(program.segments), min(3, program.segments))
            costs = [dice.choice((0, int(program.costs[s]) // 2, 2 * int(program.costs[s]) + 1)) for s in chosen]
            self.all_of(self.ask, name, text, [["whatif"] + ["%d=%d" % pair for pair in zip(chosen, costs)]])
        self.all_of(self.ask, name, text, [["whatif", "0=%d" % (MOST_WORK - program.work + int(program.costs[0]))]])


def refusals():
    """What no command can be asked: lists of costs that do not fit. Tells how many answers were wrong."""
    program = spanprof.parse(texts.PLAIN)
    kinds = []
    for costs in ([1] * (program.segments + 1), [MOST_WORK + 1] + [0] * (program.segments - 1), [2 ** 64]):
        try:
            spanprof.Program(texts.PLAIN, costs)
            kinds.append("none")
        except spanprof.Refused as refused:
            kinds.append(refused.kind)
    if kinds != ["CostCount", "CostsTooLarge", "CostsTooLarge"]:
        print("WRONG: other costs are reported as %s" % kinds)
        return 1
    late = [int(start) + 1 for start in program.starts()]
    legal = [program.is_legal(starts) for starts in (program.starts(), late, [0] * program.segments, [], late + [9])]
    if legal != [True, True, False, False, False]:
        print("WRONG: legal schedules: %s" % legal)
        return 1
    return 0


def side_by_side():
    """Many threads call at once, and are answered as one is. Tells how many answers were wrong."""
    def reported(text):
        program = spanprof.parse(text)
        return answers.slack(program), answers.greedy(program, 3, spanprof.NO_THREAD)

    some = [text for name, text in texts.examples() if len(text) < 200_000] * 3
    with ThreadPoolExecutor(8) as pool:
        wrong = sum(one != other for one, other in zip(pool.map(reported, some), map(reported, some)))
    print("%d texts on 8 threads, %d wrong" % (len(some), wrong), flush=True)
    return wrong


def main(spanprof_program, ask, sanitized):
    dice = random.Random(7)
    comparison = Commands(spanprof_program)
    wrong = refusals() + side_by_side()
    for name, text in texts.examples():
        comparison.all_of(sanitized, name, text, FEW + REFUSED + MANY)
        comparison.changed(name, text, dice)
    print("examples: %d compared" % comparison.made, flush=True)
    with tempfile.TemporaryDirectory() as folder:
        for name, text in texts.at_limits(folder):
            comparison.all_of(ask, name, text, FEW)
    print("and at the limits: %d compared" % comparison.made, flush=True)
    for name, text in texts.hostile():
        comparison.all_of(ask, name, text, FEW[:1])
    wrong += comparison.wrong
    print("%d compared, %d wrong" % (comparison.made, wrong))
    return 1 if wrong else 0


if __name__ == "__main__":
    sys.exit(main(*sys.argv[1:]))
