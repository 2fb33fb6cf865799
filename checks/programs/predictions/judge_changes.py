#!/usr/bin/env python3
"""Judges what is predicted of changed programs, and of programs with gcc's runtime, on the times that they took.

    checks/programs/predictions/judge_changes.py [--table]     --table: a row for each program
It runs none. A change is made to each recording as spanprof-whatif makes it, and the changed text's time is predicted
on as many threads as were recorded, by the machine's model and what the recording tells.
"""
import csv
import statistics
import sys
import tarfile
from dataclasses import replace
from typing import List, NamedTuple

from changes import GRAIN, MADE, SAME_CODE
from judging import Case, Judged, held, of_estimate, summary, widths
from measured import HERE

from comparing import largest
from spanprof.head import comments, read_head
from spanprof.predict.estimate import estimate
from spanprof.predict.interval import CHANGED, WIDTHS
from spanprof.predict.machine import read_machine
from spanprof.predict.recorded import GNU, LLVM, recorded_as
from spanprof.program_text import as_text, statements
from spanprof.whatif.requests import Request, applied, changes, costs_for, survey

THREADS = 4
BEFORE, AFTER = Case((THREADS,), THREADS, 0.05, 0.20), Case((THREADS,), THREADS, 0.05, 0.20, True)
COVERED = 0.9


class Row(NamedTuple):
    """Predictions by each recording, and by all of them; and times in nanoseconds."""
    name: str
    true: float
    judged: List[Judged]
    by_all: Judged
    times: List[float]      # of the true runs


def rows(name):
    with open(HERE / name, encoding="utf-8", newline="") as file:
        yield from csv.DictReader(file)


def true_times():
    """The runs by program, version and runtime, in nanoseconds."""
    return {(row["program"], row["version"], row["runtime"]): [
        1000 * float(time) for name, time in row.items() if name[3:].isdigit()] for row in rows("changes.csv")}


def recordings():
    """By program, before its change."""
    found = {}
    with tarfile.open(HERE / "changes.tar.xz") as texts:
        for row in rows("told.csv"):
            name = "%s.%s.tasks" % (row["program"], row["round"])
            one = recorded_as(texts.extractfile(name).read().decode("utf-8"), name, int(row["outside"]))
            one.arrivals = tuple(map(int, row["arrivals"].split()))
            one.dispatch = int(row["dispatch"]) if row["dispatch"] else None
            found.setdefault(row["program"], []).append(one)
    return found


def requests(made, lines):
    for option, word in made.changes:
        place, _, parts = word.rpartition("=")
        if option == GRAIN:
            word = "%s=%d" % (place, -(-largest(statements(lines), place) // int(parts)))
        yield Request(option, word)


def changed(made, one):
    """The recording with the change in its text."""
    lines = one.text.splitlines(True)
    seen = survey(statements(lines))
    asked = changes(list(requests(made, lines)), seen, costs_for(read_head(one.text), seen))
    head = ["# %s\n" % line for line in comments(one.text) if line.startswith(("recorded: ", "region: "))]
    text = "".join(head) + as_text(applied(statements(lines), asked))
    kept = ("outside", "held", "is_timed", "arrivals", "dispatch", "runtime")
    around = {name: getattr(one, name) for name in kept}
    return replace(recorded_as(text, one.name), is_changed=True, **around)


def judged(name, found, times, machine, runtime, case):
    """By each recording, and by all of them together."""
    true, several = statistics.median(times), {turn: [one] for turn, one in enumerate(found, 1)}
    reported = [of_estimate(estimate({THREADS: of}, machine, THREADS, runtime), name, turn, case, true, len(of))
                for turn, of in {**several, 0: found}.items()]
    return Row(name, true, [one for one in reported if one.turn], reported[-1], times)


def of_changes(found, true, machine):
    """Before each change, and after it."""
    for made in MADE:
        before, after = found[made.name], [changed(made, one) for one in found[made.name]]
        yield tuple(judged(made.name, of, true[made.name, version, "llvm"], machine, LLVM, case)
                    for of, version, case in ((before, "before", BEFORE), (after, "after", AFTER)))


def of_gcc(found, true, machine):
    """With gcc's runtime, by the simulation of it and by that of LLVM's, from recordings of clang's program."""
    for name in SAME_CODE:
        yield tuple(judged(name, found[name], true[name, "before", "gcc"], machine, runtime, BEFORE)
                    for runtime in (GNU, LLVM))


def line(what, several, case):
    median, nine, worst, covered = summary(several)
    is_met = median <= case.median and nine <= case.nine_of_ten
    return is_met, "%s: median %.1f %% (%.0f), nine of ten %.1f %% (%.0f), worst %.1f %%, covered %d of %d" % (
        what, *(100 * number for number in (median, case.median, nine, case.nine_of_ten, worst)), covered, len(several))


def lines(what, rows_of, case):
    """By single recordings; and by all of each program, which are the three that took the least of eight: it is given,
    and has no goal."""
    yield line(what + ", one recording", [one for row in rows_of for one in row.judged], case)
    yield True, line(what + ", all recordings", [row.by_all for row in rows_of], case)[1]


def width_lines(several):
    """Of changed programs the width has to be what they give, and as other programs give it to hold in nine of ten."""
    given, count = widths(several)[CHANGED], held(several)
    yield WIDTHS[CHANGED] == given, "width of all: %s" % (given,)
    yield count >= COVERED * len(several), "intervals with the truth, as wide as other programs give: %d of %d" % (
        count, len(several))


def table(pairs):
    def reported(row):
        return "%8.3f (%7.3f to %7.3f)  %s" % (row.true / 1e6, min(row.times) / 1e6, max(row.times) / 1e6,
                                               " ".join("%+6.1f" % (100 * one.error) for one in row.judged))
    for first, second in pairs:
        yield "%-11s %s | %s" % (first.name, reported(first), reported(second))


def main(words):
    machine, found, true = read_machine(HERE / "changes_machine.json"), recordings(), true_times()
    pairs, of_gnu = list(of_changes(found, true, machine)), list(of_gcc(found, true, machine))
    if words == ["--table"]:
        print("\n".join([*table(pairs), *table(of_gnu)]))
    before, after, gnu = [first for first, _ in pairs], [second for _, second in pairs], [first for first, _ in of_gnu]
    reported = [*lines("before the changes", before, BEFORE), *lines("changed", after, AFTER),
                *width_lines([one for row in after for one in (*row.judged, row.by_all)]),
                *lines("with gcc's runtime", gnu, BEFORE)]
    for is_met, words_of in reported:
        print("%s  %s" % ("ok    " if is_met else "FAILED", words_of))
    return 0 if all(is_met for is_met, _ in reported) else 1


if __name__ == "__main__":
    sys.exit(main(sys.argv[1:]))
