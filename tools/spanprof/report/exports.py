"""The runs for other viewers: in Chrome's trace format, for ui.perfetto.dev: threads, flows for what waits; and samples
of calls as folded stacks (flamegraph.pl, speedscope.app).

Times of a trace are microseconds. Where the text names a unit they are true; else a cost of 1 shows as 1
microsecond.
"""
import json
from collections import Counter
from typing import NamedTuple, Sequence

from spanprof.command import Fault, reading
from spanprof.diagnosis.calls import IN_CALLS
from spanprof.report.timeline import or_none

FLOWS_OF_A_RUN = 10 ** 7    # numbers of flows are of one run each
ASLEEP = ";[asleep]"


class Run(NamedTuple):
    """One run as a process of the trace."""
    process: int
    title: str
    starts: Sequence
    ends: Sequence
    threads: Sequence
    count: int

    def shows(self, s):
        return self.threads[s] is not None and self.ends[s] > self.starts[s]


def names(run):
    yield {"name": "process_name", "ph": "M", "pid": run.process, "tid": 0, "args": {"name": run.title}}
    for thread in range(run.count):
        yield {"name": "thread_name", "ph": "M", "pid": run.process, "tid": thread,
               "args": {"name": "thread %d" % thread}}


def bars(view, run, scale):
    code = view.answers.code
    for s, (cost, task, _, slack, critical) in enumerate(zip(*view.answers.rows)):
        if run.shows(s):
            length = (run.ends[s] - run.starts[s]) * scale
            yield {"name": code.place(s), "cat": "critical" if critical else "other", "ph": "X",
                   "ts": run.starts[s] * scale, "dur": length, "pid": run.process, "tid": run.threads[s],
                   "args": {"segment": s, "task": task, "cost": cost, "slack": slack, "critical": bool(critical)}}


def kind_of(code, p, s):
    """What joins two segments, the earlier one first."""
    if code.task[p] == code.task[s]:
        return "goes on"
    if code[s].after:
        return "waits"
    return "creates" if p == s - 1 else "depends"


def flow(view, run, scale, p, s, number):
    """An arrow from inside the bar of `p`, since it belongs to the bar that its moment lies in, to the start of `s`."""
    code = view.answers.code
    number += run.process * FLOWS_OF_A_RUN
    shared = {"name": kind_of(code, p, s), "cat": "edge", "id": number, "pid": run.process}
    middle = (run.starts[p] + run.ends[p]) / 2
    yield dict(shared, ph="s", ts=middle * scale, tid=run.threads[p])
    yield dict(shared, ph="f", bp="e", ts=run.starts[s] * scale, tid=run.threads[s])


def flows(view, run, scale):
    """An arrow for each edge: a creation, a dependence, a wait, or what a task does next."""
    number = 0
    for s, before in enumerate(view.answers.predecessors):
        for p in before:
            if run.shows(p) and run.shows(s):
                number += 1
                yield from flow(view, run, scale, p, s, number)


def trace_text(view):
    head, events, made, own = view.answers.head, [], view.answers.greedy, view.run
    scale = (head.nanoseconds or 1000) / 1000
    runs = [Run(1, "the run as it was", own.starts, own.ends, own.workers, own.count)] if own else []
    runs.append(Run(2, "the greedy schedule", made.starts, made.ends, or_none(made.threads), view.answers.threads))
    for run in runs:
        for part in (names(run), bars(view, run, scale), flows(view, run, scale)):
            events += part
    return json.dumps({"traceEvents": events, "displayTimeUnit": "ns",
                       "metadata": {"program": view.name, "costs": head.unit_of_costs, "remarks": head.remarks}}) + "\n"


def stacks(recording):
    """Microseconds by lists of calls, such as `main;sort;compare`."""
    path, found = recording.file("calls"), Counter()
    if not path:
        raise Fault("%s: it has no samples of calls" % recording.name)
    with reading(path), open(path, encoding="utf-8", errors="replace") as lines:
        for line in lines:
            _, did, time, calls = line.rstrip("\n").split(" ", 3)
            if did in IN_CALLS:
                found[calls + ASLEEP * (did == "slept")] += int(time)
    return found


def folded(found):
    return "".join("%s %d\n" % pair for pair in sorted(found.items()))
