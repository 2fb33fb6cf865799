"""Traces in Chrome's JSON, as Perfetto, clang's -ftime-trace and other runtimes write them: from slices of threads,
which may stand in each other, and flows between them, to tasks that follow each other.

A slice is cut into pieces where others in it begin and end; each piece is a task of the innermost slice. Pieces of one
outermost slice follow each other. A flow says that the slice that it ends in waits for that in which it begins; where
the one was not over when the other began, both are cut where the flow begins and ends, and the pieces wait.
"""
import gzip
import json
import re
from bisect import bisect_left, bisect_right
from collections import defaultdict
from dataclasses import dataclass, field
from typing import List, NamedTuple, Optional, Tuple

from spanprof.command import Fault
from spanprof.imports.tasks import Imported, timed

ROUNDED = 1000      # nanoseconds by which times of whole microseconds may be wrong
BLANKS = re.compile(r"[\s,]*")
EVENTS = re.compile(r'"traceEvents"\s*:\s*\[')
MICROSECOND = 1000
FLOWS = ("s", "t", "f")
MOST_WRONG = 0.1    # of all flows


@dataclass
class Slice:
    name: str
    at: str
    begin: int
    end: int
    parent: Optional["Slice"] = None


class Flow(NamedTuple):
    """Threads and moments; `is_inside`: it ends in the slice around that moment, and else in the next one."""
    at: str
    source: Tuple
    target: Tuple
    is_inside: bool


@dataclass
class Outermost:
    """One with those inside it, in the order of their begins, the longer ones first."""
    inside: List[Slice]
    begins: List[int]
    cuts: set = field(default_factory=set)      # moments
    leaves: bool = False        # a flow at its begin
    arrives: bool = False       # a flow at its end
    first: int = 0              # the number of its first piece

    @property
    def own(self):
        return self.inside[0]

    def around(self, moment):
        """The innermost slice."""
        found = self.inside[bisect_right(self.begins, moment) - 1]
        while found.end < moment and found.parent:
            found = found.parent
        return found

    @property
    def bounds(self):
        """The moments between its pieces. One of no length stands for a flow at its begin or its end."""
        begin, end = self.own.begin, self.own.end
        inner = {moment for one in self.inside for moment in (one.begin, one.end)} | self.cuts
        return [begin] * self.leaves + [begin] + sorted(inner - {begin, end}) + [end] + [end] * self.arrives

    def pieces(self, bounds):
        """Slices, begins and ends."""
        innermost, coming = self.own, 0
        for begin, end in zip(bounds, bounds[1:]):
            while coming < len(self.inside) and self.begins[coming] <= begin:
                innermost, coming = self.inside[coming], coming + 1
            while innermost.end <= begin and innermost.parent:
                innermost = innermost.parent
            yield innermost, begin, end


def around(stack, one):
    """The slice that one of a thread stands in; none where it is an outermost one. Rounded ends are moved."""
    while stack:
        last = stack[-1]
        if last.end - ROUNDED <= one.begin < last.end < one.end:
            one.begin = last.end
        if one.begin < last.end:
            break
        stack.pop()
    if stack and one.end > stack[-1].end + ROUNDED:
        raise Fault("%s: %s begins in %s and ends after it, on one thread" % (one.at, one.name, stack[-1].name))
    return stack[-1] if stack else None


def nested(slices):
    """The outermost ones of a thread, in order."""
    found, stack = [], []
    for one in sorted(slices, key=lambda one: (one.begin, -one.end)):
        one.parent = around(stack, one)
        if one.parent:
            one.end = min(one.end, one.parent.end)
        else:
            found.append(Outermost([], []))
        found[-1].inside.append(one)
        found[-1].begins.append(one.begin)
        stack.append(one)
    return found


class Thread:
    def __init__(self, slices):
        self.outermost = nested(slices)
        self.begins = [one.own.begin for one in self.outermost]

    def around(self, moment, at):
        """The outermost slice around a moment, the later one where two meet there."""
        number = bisect_right(self.begins, moment) - 1
        if number < 0 or self.outermost[number].own.end < moment:
            raise Fault("%s: no slice of the thread is around this flow" % at)
        return self.outermost[number]

    def next(self, moment, at):
        """The slice that begins next."""
        number = max(0, bisect_right(self.begins, moment) - 1)
        for outer in self.outermost[number:number + 2]:
            inner = bisect_left(outer.begins, moment)
            if inner < len(outer.begins):
                return outer, outer.inside[inner]
        raise Fault("%s: no slice of the thread begins behind this flow" % at)


class Wait(NamedTuple):
    """The pieces of one outermost slice from a moment on wait for those of another before a moment."""
    source: Outermost
    leaving: int
    target: Outermost
    arriving: int

    def cut(self):
        for outer, moment in ((self.source, self.leaving), (self.target, self.arriving)):
            outer.cuts.add(moment)
        self.source.leaves |= self.leaving == self.source.own.begin
        self.target.arrives |= self.arriving == self.target.own.end

    def pieces(self, bounds):
        """Their numbers, by the bounds of each."""
        first = bisect_right(bounds[id(self.source)], self.leaving) - 2
        return self.source.first + first, self.target.first + bisect_left(bounds[id(self.target)], self.arriving)


def wait_of(threads, flow):
    if any(thread not in threads for thread, _ in (flow.source, flow.target)):
        raise Fault("%s: this flow begins or ends on a thread without slices" % flow.at)
    source = threads[flow.source[0]].around(flow.source[1], flow.at)
    before, (thread, moment) = source.around(flow.source[1]), flow.target
    if flow.is_inside:
        target = threads[thread].around(moment, flow.at)
        behind = target.around(moment)
    else:
        target, behind = threads[thread].next(moment, flow.at)
        moment = behind.begin
    if before.end <= behind.begin:
        return Wait(source, before.end, target, behind.begin)
    return Wait(source, flow.source[1], target, moment)


def add_pieces(tasks, outer, bounds, worker, last):
    """Those of an outermost slice, of which the first follows another task, if there is one."""
    outer.first = len(tasks)
    for one, begin, end in outer.pieces(bounds):
        task = timed(one.at, one.name, begin, end, worker)
        task.before += [] if last is None else [last]
        last = len(tasks)
        tasks.append(task)
    return last


def waits_of(threads, flows):
    """Those of flows with a slice at each end; and of the others what is wrong with each."""
    waits, wrong = [], []
    for flow in flows:
        try:
            waits.append(wait_of(threads, flow))
        except Fault as fault:
            wrong.append(str(fault))
    return waits, wrong


def tasks_of(slices, flows):
    """Of slices by thread; and what is wrong with flows that are left out. Without flows the outermost slices of a
    thread follow each other."""
    threads, tasks = {thread: Thread(some) for thread, some in slices.items()}, []
    waits, wrong = waits_of(threads, flows)
    for wait in waits:
        wait.cut()
    bounds = {id(outer): outer.bounds for thread in threads.values() for outer in thread.outermost}
    for worker, thread in threads.items():
        last = None
        for outer in thread.outermost:
            last = add_pieces(tasks, outer, bounds[id(outer)], worker, None if flows else last)
    for wait in waits:
        first, then = wait.pieces(bounds)
        if first < then or wait.source is not wait.target:
            tasks[then].before.append(first)
    return tasks, wrong


class Event(NamedTuple):
    line: int
    fields: dict

    def get(self, name, default=None):
        return self.fields.get(name, default)


def text_of(path):
    with open(path, "rb") as file:
        is_packed = file.read(2) == b"\x1f\x8b"
    with (gzip.open if is_packed else open)(path, "rt", encoding="utf-8", errors="replace") as file:
        return file.read()


def events_in(path, text):
    """One by one, with their lines. The `]` behind the last may be missing, as where a program was killed."""
    begin = re.match(r"\s*\[", text) or EVENTS.search(text)
    if not begin:
        raise Fault("%s:1: no array of events, `traceEvents`" % path)
    decoder, at, line, counted = json.JSONDecoder(), begin.end(), 1, 0
    while True:
        at = BLANKS.match(text, at).end()
        if at == len(text) or text[at] == "]":
            return
        line, counted = line + text.count("\n", counted, at), at
        try:
            fields, at = decoder.raw_decode(text, at)
        except ValueError as wrong:
            raise Fault("%s:%d: the event that begins here is damaged or cut off" % (path, line)) from wrong
        if not isinstance(fields, dict):
            raise Fault("%s:%d: no event, but %s" % (path, line, json.dumps(fields)[:40]))
        yield Event(line, fields)


@dataclass
class Trace:
    """What the events of one or all processes tell, by thread."""
    path: str
    slices: dict
    flows: list
    unended: int = 0
    wrong: list = field(default_factory=list)   # what is wrong with flows, of which there are so many
    flow_ends: int = 0

    def at(self, event):
        return "%s:%d" % (self.path, event.line)

    def moment(self, event, field="ts"):
        value = event.get(field, 0 if field == "dur" else None)
        if isinstance(value, bool) or not isinstance(value, (int, float)):
            raise Fault("%s: the %s of this event is no number" % (self.at(event), field))
        if value < 0:
            raise Fault("%s: the %s of this event is negative" % (self.at(event), field))
        return round(value * MICROSECOND)


def thread_of(event) -> Tuple:
    return event.get("pid", 0), event.get("tid", 0)


def name_of(event):
    """With what clang tells besides, such as a file or a function."""
    reported = event.get("args")
    detail = reported.get("detail", "") if isinstance(reported, dict) else ""
    return " ".join(filter(None, [str(event.get("name") or "a slice"), str(detail)]))


def take_slice(trace, event, open_ones):
    """One that is whole, or of which this is the begin or the end."""
    thread, kind, at = thread_of(event), event.get("ph"), trace.moment(event)
    if kind == "B":
        open_ones[thread].append(Slice(name_of(event), trace.at(event), at, at))
    elif kind == "X":
        trace.slices[thread].append(Slice(name_of(event), trace.at(event), at, at + trace.moment(event, "dur")))
    elif open_ones[thread]:
        ended = open_ones[thread].pop()
        if at < ended.begin:
            raise Fault("%s: %s ends before it begins" % (trace.at(event), ended.name))
        ended.end = at
        trace.slices[thread].append(ended)
    else:
        trace.unended += 1


def take_flow(trace, event, met):
    """From the step of the same flow before this one."""
    key, step = (event.get("cat"), event.get("name"), str(event.get("id"))), event.get("ph")
    here = trace.at(event), thread_of(event), trace.moment(event)
    if step == "s":
        met[key] = here
        return
    trace.flow_ends += 1
    if key in met:
        is_inside = step == "t" or event.get("bp") == "e"
        trace.flows.append(Flow(here[0], met[key][1:], here[1:], is_inside))
        met[key] = here
    else:
        trace.wrong.append("%s: the flow %s did not begin before" % (here[0], event.get("id")))


def trace_in(path, process=None):
    trace, open_ones, flows = Trace(path, defaultdict(list), []), defaultdict(list), []
    for event in events_in(path, text_of(path)):
        if process is not None and str(event.get("pid")) != process:
            continue
        reported = event.get("args")
        is_sum = isinstance(reported, dict) and "avg ms" in reported    # of others, as clang adds it to a trace
        if event.get("ph") in ("X", "B", "E") and not is_sum:
            take_slice(trace, event, open_ones)
        elif event.get("ph") in FLOWS:
            flows.append(event)
    met = {}
    for event in sorted(flows, key=lambda event: (trace.moment(event), FLOWS.index(event.get("ph")))):
        take_flow(trace, event, met)
    trace.unended += sum(map(len, open_ones.values()))
    return trace


def notes_on(trace):
    """What is left out. A trace that was cut has a few flows without a begin or a slice; of one with many the graph is
    wrong."""
    if len(trace.wrong) > MOST_WRONG * trace.flow_ends:
        raise Fault(trace.wrong[0])
    if trace.wrong:
        yield "%d of %d flows are left out, such as %s" % (len(trace.wrong), trace.flow_ends, trace.wrong[0])
    if trace.unended:
        yield "%d slices without a begin or an end are left out" % trace.unended
    if not trace.flows:
        yield "without flows: the slices of a thread follow each other"


def read(path, process=None):
    trace = trace_in(path, process)
    if not any(trace.slices.values()):
        raise Fault("%s: no slices (events `X`, or `B` and `E`)%s" % (path, " of this process" * (process is not None)))
    tasks, wrong = tasks_of(trace.slices, trace.flows)
    trace.wrong += wrong
    return Imported("", tasks, notes=list(notes_on(trace)))
