"""A program text of any size with what the proved program answers of it. Each command is run once, when its answer is
first needed; what it tells of each segment is read as it comes, kept in columns of numbers, and summed by place. And
work, span, and least, end and bound on some threads of any other text, such as a changed one.
"""
from array import array
from collections import Counter
from dataclasses import dataclass, field
from functools import cached_property
from itertools import compress, repeat
from operator import add
from typing import Dict, NamedTuple, Optional, Sequence

from spanprof import MOST_THREADS, client
from spanprof.client import is_long
from spanprof.command import Fault
from spanprof.head import head_of
from spanprof.program_text import TextFile
from spanprof.recording import open_recording, shown_name
from spanprof.segment_table import code_in, file_beside, read_code

THREADS_WITHOUT_RECORDING = 4
LONGEST_CURVE = 64
SLACK = ("start", "slack", "chain")
FEW = 6     # threads: a curve of so many schedules is made in less time than a table of one is written and read
ROOTS = ("the root", "serial code")     # as the first task is named; in the whole program it runs all serial code


class Rows(NamedTuple):
    """Of each segment what `slack` tells, in columns; `critical` has 1 and 0."""
    cost: array
    task: array
    start: array
    slack: array
    critical: array


@dataclass
class Greedy:
    """The greedy schedule: of each segment its start and its thread, which is -1 where it needs none; and its end."""
    starts: array
    ends: array
    threads: array

    @property
    def end(self):
        return max(self.ends, default=0)


def take_runs(head, runs):
    """What all runs took, of which this one is kept, in the unit of its text."""
    head.runs, unit = len(runs) or None, head.nanoseconds or 1
    for name in ("work", "span") if runs else ():
        ordered = sorted(one[name + "_ns"] // unit for one in runs)
        head.spread[name] = ordered[0], ordered[(len(ordered) - 1) // 2], ordered[-1]


class Answers:
    """Of a text, by its path or that of a recording."""

    def __init__(self, recording, threads=None, tell=None):
        self.path, self.tell = getattr(recording, "text", recording), tell or (lambda words: None)
        self.name = shown_name(self.path)
        self.asked, self.wanted_threads = [], threads
        self.file = TextFile(self.path)
        self.head = head_of(self.path)
        take_runs(self.head, open_recording(self.path).meta.get("runs") or [])

    @property
    def text(self):
        return str(self.file)

    def noted(self, shown):
        """That this is asked, as a line of a terminal."""
        self.tell(shown)
        self.asked.append(shown)

    def note(self, *words):
        shown = " ".join(words[:3]) + " .." * (len(words) > 3)
        self.noted("spanprof_large %s < %s" % (shown, self.name))

    def ask(self, *words):
        self.note(*words)
        return client.ask(words, self.file)

    def columns(self, words, names):
        self.note(*words)
        return client.columns(words, self.file, names)

    @cached_property
    def numbers(self):
        return client.measured(self.path)

    @property
    def threads(self):
        """Those asked for, or recorded; at most what `greedy` takes."""
        return min(self.wanted_threads or self.head.threads or THREADS_WITHOUT_RECORDING, MOST_THREADS)

    @property
    def most_threads(self):
        """Those, or the recorded ones where these are more."""
        return min(max(self.threads, self.head.threads or 1), MOST_THREADS)

    @property
    def is_long(self):
        """Whether there is too much in the text to show, or to try, each piece of it."""
        return is_long(self.numbers)

    @cached_property
    def span_numbers(self):
        self.note("span")
        return self.numbers

    @property
    def work(self):
        return self.span_numbers["work"]

    @property
    def span(self):
        return self.span_numbers["span"]

    @cached_property
    def code(self):
        """The segments; of a text with loops those of its canonical text, which has none."""
        if not file_beside(self.path):
            client.measured(self.path)      # its fault names the line
        if self.file.has_loops():
            return read_code(client.ask(["show"], self.file).splitlines(True), self.name)
        return code_in(self.path)

    @cached_property
    def rows(self):
        found = self.columns(["slack"], SLACK)
        assert len(found[0]) == len(self.code), "the text was read otherwise"
        return Rows(self.code.cost, self.code.task, *found)

    @cached_property
    def of_kinds(self):
        """Of each kind of segments the row of `places`."""
        self.noted("spanprof_large places < " + self.name)
        found = client.places(self.path, self.code.of)
        if (sum(found[0]), sum(found[1])) != (len(self.code), sum(self.code.cost)):
            raise Fault("%s: its table of segments is of another text" % self.name)
        return list(zip(*found))

    def sums(self, names):
        """The same by name, where each kind of segments has one of these names: sums, and the least slack."""
        out = {}
        for name, (*sums, slack) in zip(names, self.of_kinds):
            *before, least = out.get(name, (*repeat(0, len(sums)), slack))
            out[name] = (*map(add, before, sums), min(least, slack))
        return out

    def costs(self):
        """By place."""
        return Counter({name: work for name, (_, work, *_) in self.sums(self.code.names).items()})

    @property
    def path_segments(self):
        """Those on the path that `slack` shows."""
        return list(compress(range(len(self.code)), self.rows.critical))

    @property
    def tasks(self):
        return self.code.tasks

    @cached_property
    def parts(self):
        """How many of the tasks stand for a thread's own code between two barriers."""
        return self.code.parts()

    @cached_property
    def curve(self):
        """Of each number of threads, from 1 on, the numbers of its row; of a long text without `end`."""
        if self.is_long:
            return curve_in(self.ask("--upto", str(max(self.most_threads, LONGEST_CURVE))))
        enough = 2 * max(self.threads, self.work // max(self.span, 1))
        upto = max(self.most_threads, min(LONGEST_CURVE, max(16, enough)))
        return curve_in(self.ask("curve", "--upto", str(upto)))

    @cached_property
    def schedules(self):
        """The same, of a long text with the ends of greedy schedules on its threads: each takes seconds."""
        for threads in {self.threads, self.head.threads} & set(self.curve) if self.is_long else ():
            made = self.greedy if threads == self.threads else self.greedy_on(threads)
            self.curve[threads].update({"end": made.end} if made else {})
        return self.curve

    @cached_property
    def greedy(self):
        return self.greedy_on(self.threads)

    def greedy_on(self, threads):
        """None where there is too little memory for it."""
        try:
            starts, on = self.columns(["greedy", "--threads", str(threads)], ("start", "thread"))
            return Greedy(starts, array("q", map(add, starts, self.code.cost)), on)
        except client.Refused as refused:
            if refused.is_of_memory:
                return None
            raise

    @cached_property
    def predecessors(self):
        self.note("graph")
        return client.predecessors(self.file)


def curve_in(table):
    return {int(row["threads"]): {key: int(value) for key, value in row.items()} for row in client.rows(table)}


class OnThreads(NamedTuple):
    """Without `end` where memory was too little for a greedy schedule of the text."""
    least: int
    bound: int
    end: Optional[int] = None


class Numbers(NamedTuple):
    by: str     # the program that takes such a text
    segments: int
    work: int
    span: int
    on: Dict[int, OnThreads]


def on_threads(reported, threads):
    """The rows of these numbers of threads in a table."""
    rows = {row.get("threads"): row for row in client.rows(reported)}
    try:
        return {p: OnThreads(*(int(rows[str(p)][name]) for name in OnThreads._fields if name in rows[str(p)]))
                for p in threads}
    except (KeyError, TypeError) as wrong:
        raise Fault("no bounds are known on %s threads" % " and ".join(map(str, threads))) from wrong


def curve(text, most):
    return client.ask(["curve", "--upto", str(most)], text)


def greedy_end(text, threads):
    """None where its greedy schedule takes too much memory."""
    try:
        if threads <= FEW:
            return on_threads(curve(text, threads), [threads])[threads].end
        return max(client.columns(["greedy", "--threads", str(threads)], text, ["end"])[0], default=0)
    except client.Refused as refused:
        if refused.is_of_memory:
            return None
        raise


def of_long(text, threads):
    """Where there are many threads greedy schedules are made on these numbers of them alone."""
    if max(threads) <= FEW:
        try:
            return on_threads(curve(text, max(threads)), threads)
        except client.Refused as refused:
            if not refused.is_of_memory:
                raise
    bounds = on_threads(client.ask(["--upto", str(max(threads))], text), threads)
    return {p: row._replace(end=greedy_end(text, p)) for p, row in bounds.items()}


def numbers_of(text, threads):
    """Of a text, or a TextFile."""
    found = client.measured(text.path) if isinstance(text, TextFile) else client.numbers(text)
    long = is_long(found)
    on = of_long(text, threads) if long else on_threads(curve(text, max(threads)), threads)
    return Numbers("spanprof_large" if long else "spanprof", found["segments"], found["work"], found["span"], on)


@dataclass
class Place:
    """The segments at one place, which follow a construct, or begin a task; or those of all tasks of a place. The sums
    are those of `places`."""
    name: str
    segments: int = 0
    cost: int = 0
    critical_segments: int = 0
    critical_cost: int = 0
    slack: int = 0
    number: int = 0
    kinds: Sequence[int] = field(default_factory=list)  # of its segments
    tasks: int = 0      # how many begin there


def by_name(answers, names):
    """Of each kind of segments one of these names."""
    found = {name: Place(name, *sums) for name, sums in answers.sums(names).items()}
    for kind, name in enumerate(names):
        found[name].kinds.append(kind)
    return found


def numbered(places, order):
    """The places in an order, which numbers them."""
    ordered = sorted(places, key=order)
    for number, place in enumerate(ordered):
        place.number = number
    return ordered


def places(answers):
    """By their part of the span, then of the work."""
    found = by_name(answers, answers.code.names).values()
    return numbered(found, lambda place: (-place.critical_cost, -place.cost, place.name))


def task_places(answers):
    """The tasks that one construct has created, by their cost; the root is one of its own."""
    code, root = answers.code, ROOTS[bool(answers.head.whole)]
    names = [kind.task_place or (root if kind.is_root else "a task") for kind in code.kinds]
    found = by_name(answers, names)
    for (kind, _), (count, *_) in code.sums.items():
        if not code.kinds[kind].after:
            found[names[kind]].tasks += count
    return numbered(found.values(), lambda place: (-place.cost, place.name))
