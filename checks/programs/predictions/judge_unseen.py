"""Judges predictions of programs that nothing was fitted to, by a folder that measure_unseen.py or kept_unseen.py has
left: by single recordings, and by five of each kind together."""
import csv
import os
import statistics
from collections import defaultdict
from concurrent.futures import ProcessPoolExecutor
from functools import partial
from typing import Callable, Dict, List, NamedTuple, Tuple

from judge_changes import changed
from judging import Case, Judged, of_estimate, summary
from measured import read, texts
from quiet import Used, verdict
from unseen import HAS_CHANGES, ON_GCC, UNSEEN

from spanprof.predict.estimate import estimate
from spanprof.predict.machine import read_machine
from spanprof.predict.predictions import undisturbed
from spanprof.predict.recorded import GNU, LLVM, recorded_as, take_times

RUNTIME = GNU if ON_GCC else LLVM
COVERED, WORST = 0.9, 0.20
FEWEST = 5      # quiet turns, of which alone the times are taken
TOGETHER = 5    # recordings on each number of threads
BEFORE, AFTER = "before", "after"


class Kind(NamedTuple):
    """What is judged: after the change the worst counts, and not nine of ten."""
    name: str
    case: Case

    @property
    def version(self):
        return AFTER if self.case.is_changed else BEFORE


FROM_FOUR = Kind("4 from 4", Case((4,), 4, 0.05, 0.15))
FROM_FEWER = Kind("4 from 1 and 2", Case((1, 2), 4, 0.08, 0.20))
CHANGED = Kind("changed, 4 from 4", Case((4,), 4, 0.05, 0.20, True))
KINDS = (FROM_FOUR, *(() if ON_GCC else (FROM_FEWER,)), *((CHANGED,) if HAS_CHANGES else ()))


class Measured(NamedTuple):
    """Nanoseconds by program and version and threads and turn, what was watched by turn, and how recordings are read,
    by program and threads and turn."""
    times: Dict[Tuple[str, str, int, int], int]
    watched: Dict[int, Used]
    recordings: Dict[Tuple[str, int, int], Callable]

    @property
    def turns(self):
        """The quiet ones; all where these are too few, or none was watched."""
        quiet = {turn for turn, used in self.watched.items() if used.is_quiet}
        return quiet if len(quiet) >= FEWEST else set(self.watched) or {
            key[-1] for key in (*self.times, *self.recordings)}


class Task(NamedTuple):
    """What one program's predictions take: how each recording is read, by threads and turn, unrecorded runs by version
    and threads, and the model of the machine."""
    made: object
    recordings: Dict[Tuple[int, int], Callable]
    runs: Dict[Tuple[str, int], List[int]]
    machine: object


def rows(path):
    with open(path, encoding="utf-8", newline="") as file:
        yield from csv.DictReader(file)


def read_recording(path):
    one = recorded_as(path.read_text(encoding="utf-8"), path.name)
    one.runtime = RUNTIME
    take_times(one, path.with_suffix(".timed"))
    return one


def read_measured(folder):
    times = {(row["program"], row["version"], int(row["threads"]), int(row["turn"])): int(row["nanoseconds"])
             for row in rows(folder / "turns.csv")}
    watched = {int(row["turn"]): Used(*(float(row[name]) for name in Used._fields))
               for row in rows(folder / "watched.csv")}
    recordings = {}
    for path in sorted(folder.glob("*.tasks")):
        program, threads, turn, _ = path.name.split(".")
        recordings[program, int(threads), int(turn)] = partial(read_recording, path)
    return Measured(times, watched, recordings)


def read_kept(folder):
    """The same of what is kept of its quiet turns."""
    times = {(row["program"], row["version"], int(row["threads"]), int(name[3:])): round(1000 * float(taken))
             for row in rows(folder / "true_times.csv") for name, taken in row.items() if name[3:].isdigit() and taken}
    recordings = {(program, int(row["threads"]), int(row["round"])): partial(read, text, row)
                  for program, several in texts(folder).items() for text, row in several}
    return Measured(times, {}, recordings)


def read_folder(folder):
    """What was measured, and the model of the machine."""
    if (folder / "turns.csv").exists():
        return read_measured(folder), read_machine((folder / "model").read_text())
    return read_kept(folder), read_machine(folder / "machine.json")


def runs_of(measured, turns, program):
    """The unrecorded runs in these turns, by version and threads."""
    found = defaultdict(list)
    for (name, version, threads, turn), taken in sorted(measured.times.items()):
        if name == program and turn in turns:
            found[version, threads].append(taken)
    return dict(found)


def in_groups(case, recordings, together):
    """Lists of recordings by threads: the first ones of a program, the next ones, and so on. What is left over at the
    end does not count, nor turns in which it was not recorded on all threads of the case."""
    turns = sorted({turn for _, turn in recordings})
    complete = [turn for turn in turns if all((threads, turn) in recordings for threads in case.of)]
    for first in range(0, len(complete) - together + 1, together):
        yield {threads: [recordings[threads, turn] for turn in complete[first:first + together]] for threads in case.of}


def judged(task, recordings, kind, together):
    """Predictions by so many recordings on each number of threads."""
    case, true = kind.case, statistics.median(task.runs[kind.version, kind.case.threads])
    for number, found in enumerate(in_groups(case, recordings, together), 1):
        found = {threads: undisturbed(several) for threads, several in found.items()}
        if case.is_changed:
            found = {threads: [changed(task.made, one) for one in several] for threads, several in found.items()}
        one = estimate(found, task.machine, case.threads)
        yield of_estimate(one, task.made.name, number, case, true, min(map(len, found.values())))


def judge_program(task):
    """By kind, by single recordings and by several."""
    recordings = {key: read_one() for key, read_one in task.recordings.items()}
    return {(kind, together): list(judged(task, recordings, kind, together))
            for together in (1, TOGETHER) for kind in KINDS}


def tasks(measured, machine):
    """Of all programs, in the turns that count."""
    turns = measured.turns
    for made in UNSEEN:
        recordings = {(threads, turn): read_one for (program, threads, turn), read_one in measured.recordings.items()
                      if program == made.name and turn in turns}
        yield Task(made, recordings, runs_of(measured, turns, made.name), machine)


def judge_all(several):
    found = defaultdict(list)
    with ProcessPoolExecutor(len(os.sched_getaffinity(0))) as pool:
        for of_program in pool.map(judge_program, several):
            for key, predictions in of_program.items():
                found[key] += predictions
    return found


def worst_program(of_case):
    """The greatest error of a program, of which the median of its predictions counts."""
    errors = defaultdict(list)
    for one in of_case:
        errors[one.program].append(one.error)
    return max(abs(statistics.median(found)) for found in errors.values())


def line(kind, of_case, together=1):
    """In words, and whether it is as near as it has to be."""
    case = kind.case
    name = "%s, %s" % (kind.name, "one recording" if together == 1 else "%d recordings" % together)
    if not of_case:
        return "FAILED  not fitted to: %s: nothing was measured" % name, False
    median, nine, worst, covered = summary(of_case)
    is_near = worst <= WORST if case.is_changed else nine <= case.nine_of_ten
    is_met = median <= case.median and is_near and covered >= COVERED * len(of_case)
    goals = ("", " (%.0f)" % (100 * WORST)) if case.is_changed else (" (%.0f)" % (100 * case.nine_of_ten), "")
    words = "%s  not fitted to: %s, %d programs, %d predictions: median %.1f %% (%.0f), nine of ten %.1f %%%s, worst " \
        "%.1f %%%s, of the medians of programs %.1f %%, intervals with the truth %d" % (
            "ok    " if is_met else "FAILED", name, len({one.program for one in of_case}), len(of_case), 100 * median,
            100 * case.median, 100 * nine, goals[0], 100 * worst, goals[1],
            100 * worst_program(of_case), covered)
    return words, is_met


def cell(several):
    """Errors of the predictions of a program: the median, and from which to which."""
    errors = sorted(100 * one.error for one in several)
    return "%+.1f (%+.1f to %+.1f)" % (statistics.median(errors), errors[0], errors[-1]) if errors else "none"


def times_cell(times):
    taken = [time / 1e6 for time in times]
    return "%.2f (%.2f to %.2f)" % (statistics.median(taken), min(taken), max(taken)) if taken else "none"


def table(several, columns: List[Tuple[Kind, List[Judged]]]):
    """In Markdown: a program's true times in ms, where the column before is not of the same ones, and its errors."""
    is_new = [not i or columns[i - 1][0].version != kind.version for i, (kind, _) in enumerate(columns)]
    heads = ["True, ms | " * new + kind.name for (kind, _), new in zip(columns, is_new)]
    yield "| Program | %s |" % " | ".join(heads)
    yield "|" + "---|" * (1 + len(columns) + sum(is_new))
    for task in several:
        cells = []
        for (kind, found), new in zip(columns, is_new):
            cells += [times_cell(task.runs.get((kind.version, kind.case.threads), []))] * new + [cell(
                [one for one in found if one.program == task.made.name])]
        yield "| %s | %s |" % (task.made.name, " | ".join(cells))


def judge(folder):
    """Prints a table and lines for each kind; the status is 0 where all is as near as it has to be."""
    measured, machine = read_folder(folder)
    several = list(tasks(measured, machine))
    found = judge_all(several)
    for together in (1, TOGETHER):
        print("\n".join(table(several, [(kind, found[kind, together]) for kind in KINDS])))
    reported = [line(kind, predictions, together) for (kind, together), predictions in found.items()]
    print("\n".join(words for words, _ in reported))
    if measured.watched:
        print("%s; the times are those of %d turns" % (verdict(list(measured.watched.values())), len(measured.turns)))
    return 0 if all(is_met for _, is_met in reported) else 1
