"""Tasks of another tool as a recording: the folder NAME.spanprof with a text, and with times where these are of one
run.

The root creates all tasks, at the first moment, and each waits for the depend items of others.
"""
import json
import os
import shutil
from array import array
from dataclasses import dataclass, field
from datetime import datetime, timezone
from typing import List

from spanprof.command import Fault, naming
from spanprof.head import NANOSECONDS
from spanprof.imports.tasks import in_order
from spanprof.program_text import Statement, as_text
from spanprof.record.folder import PART, check_folder, write_meta
from spanprof.recording import ENDING, TEXT, TIMES
from spanprof.time_breakdown import Rows

MOST_COST, MOST_WORK = 10 ** 12, 10 ** 15   # of a text
MOST_THREADS, LONGEST = 1024, 10 ** 15


def unit_of(tasks):
    """The smallest in which the text has no number that is too large."""
    most, work = max((task.cost for task in tasks), default=0), sum(task.cost for task in tasks)
    return next((unit for unit, size in NANOSECONDS.items() if most <= MOST_COST * size and work <= MOST_WORK * size),
                "ms")


def statements(tasks, size):
    awaited = {first for task in tasks for first in task.before}
    for number, task in enumerate(tasks):
        items = [("out", "t%d" % number)] * (number in awaited) + [("in", "t%d" % first) for first in task.before]
        yield Statement("task", items=tuple(items), comment=" ".join(task.name.split()))
        yield Statement("work", cost=task.cost // size)
        yield Statement("end", of="task")


def head(program, region, date, unit, threads=None, elapsed=None):
    """Threads and elapsed time are those of a run whose times are known."""
    recorded = {"program": program, "date": date, "threads": threads, "clock": "wall", "unit": unit}
    reported = [("recorded", {name: value for name, value in recorded.items() if value is not None}),
                ("region", {"at": region, "number": 1, "of": 1})]
    reported += [("elapsed", elapsed // NANOSECONDS[unit])] if elapsed is not None else []
    return ["# %s: %s\n" % (name, json.dumps(value)) for name, value in reported]


def body(tasks, unit):
    return as_text(statements(tasks, NANOSECONDS[unit]))


@dataclass
class Run:
    threads: int
    first: int
    last: int
    rows: List[tuple] = field(default_factory=list)     # of each task thread, begin, end

    @property
    def elapsed(self):
        return self.last - self.first

    def lines(self):
        """Those of the file of times, from 0 on. Of a task's two segments the second is the root's after its
        creation."""
        yield "times %d 0 %d\n" % (self.threads, self.elapsed)
        yield "0 0 0 0\n"
        for number, (thread, begin, end) in enumerate(self.rows):
            yield "%d %d %d %d\n" % (2 * number + 1, thread, begin - self.first, end - self.first)
            yield "%d 0 0 0\n" % (2 * number + 2)


def threads_of(tasks):
    """Of each task with code, by its number: of unknown workers one that is free."""
    timed = [number for number, task in enumerate(tasks) if task.begin is not None]
    if any(tasks[number].worker is None for number in timed):
        begin, end = (array("q", [getattr(tasks[number], name) for number in timed]) for name in ("begin", "end"))
        return dict(zip(timed, Rows(begin, begin, begin, end).on_few_threads.thread))
    workers = {}
    return {number: workers.setdefault(tasks[number].worker, len(workers)) for number in timed}


def rows_of(tasks, first):
    """What joins others has the moment and the thread of the last of them."""
    threads, out = threads_of(tasks), []
    for number, task in enumerate(tasks):
        if task.begin is None:
            moment, thread = max(((out[one][2], out[one][0]) for one in task.before), default=(first, 0))
            out.append((thread, moment, moment))
        else:
            out.append((threads[number], task.begin, task.end))
    return out


def overlapping(tasks, rows):
    """Why the tasks of a thread are not one after the other; empty where they are."""
    last = {}
    for number in sorted(range(len(rows)), key=lambda n: rows[n][1:]):
        thread, begin, end = rows[number]
        if begin < end:
            if thread in last and begin < rows[last[thread]][2]:
                return "%s begins while %s runs on its worker" % (tasks[number].name, tasks[last[thread]].name)
            last[thread] = number
    return ""


def too_soon(tasks, rows):
    """Which task began before one ended that precedes it; empty where none did."""
    for task, (_, begin, _) in zip(tasks, rows):
        for first in task.before:
            if begin < rows[first][2]:
                return "%s begins before %s has ended, for which it waits" % (task.name, tasks[first].name)
    return ""


def run_of(tasks):
    """The run, and why there is none; one of them is empty. Some task has times."""
    timed = [task for task in tasks if task.begin is not None]
    first = min(task.begin for task in timed)
    rows = rows_of(tasks, first)
    run = Run(max(row[0] for row in rows) + 1, first, max(task.end for task in timed), rows)
    why = overlapping(tasks, rows) or too_soon(tasks, rows)
    if not why and (run.threads > MOST_THREADS or run.elapsed > LONGEST):
        why = "it has more than %d threads, or is longer than 10^15 ns" % MOST_THREADS
    return (None, why) if why else (run, "")


def fill(folder, path, name, reported):
    """Writes what the file at `path` tells; answers why there are no times."""
    tasks = in_order(reported.tasks)
    run, why = (None, reported.no_times) if reported.no_times else run_of(tasks)
    unit = unit_of(tasks)
    numbers = (run.threads, run.elapsed) if run else ()
    written = datetime.fromtimestamp(os.stat(path).st_mtime, timezone.utc).strftime("%Y-%m-%dT%H:%M:%SZ")
    lines = head(name, os.path.basename(path), written, unit, *numbers)
    files = {TEXT: [*lines, body(tasks, unit)], **({TIMES: run.lines()} if run else {})}
    for file, its_lines in files.items():
        with naming(folder), open(os.path.join(folder, file), "w", encoding="utf-8", errors="replace") as out:
            out.writelines(its_lines)
    facts = {"imported": reported.tool or "a trace", "runtime": {"name": reported.tool} if reported.tool else None}
    write_meta(folder, {**facts, **({"elapsed_ns": run.elapsed, "threads": {"most": run.threads}} if run else {})})
    return why


def write(path, out, reported, is_forced=False):
    """The recording NAME.spanprof for the NAME `out`, whole or not at all; answers why there are no times."""
    if all(task.begin is None for task in reported.tasks):
        raise Fault("%s: no task in it has times" % path)
    check_folder(out)
    final = out + ENDING
    part = final + PART
    if os.path.exists(final) and not is_forced:
        raise Fault("%s is there already; --force replaces it, and --out names another" % final)
    shutil.rmtree(part, ignore_errors=True)
    with naming(part):
        os.mkdir(part)
    try:
        why = fill(part, path, os.path.basename(out), reported)
        if os.path.exists(final):
            shutil.rmtree(final)
        os.rename(part, final)
    finally:
        shutil.rmtree(part, ignore_errors=True)
    return why
