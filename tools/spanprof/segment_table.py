"""The segments of a text of any size in columns: what stands of each in the source, and its task; of a recorded text in
those of the file `segments`, which its converter writes.

The file has a column each of the segments' kinds (two bytes), tasks and costs (four bytes, the lowest first), in blocks
of 65,536 segments, and then a line of JSON. There `kinds` has of each whether it is of the root, the place of its task,
what it follows and where, and of code around a region its place. `long` has segments and costs from 2^32 - 1 on, `own`
the first segments of threads' own code and the groups around them. `sums` has two kinds, how many segments of the first
stand before one of the second, what they cost together, and the most. `clauses` has kinds, words, how many tasks have
them, and how many of these right behind another one. `phases` has a kind for each place of code that is divided among
threads, and of it what phases.Phases has. `regions`, where none is inside another one, has by place how many there are,
how long they last, the code of all threads, and how long by their threads, with the most that those asked for. Where
there are times, `delays` has kinds around regions, how long their segments waited in all, and of that what a runtime
may take to start each; and `barriers` of a region a kind of its threads' code, how often its phases begin, how much
less its threads would wait without barriers, and by kind all their waits, and those at barriers.
"""
import json
import os
from array import array
from collections import Counter, defaultdict
from contextlib import contextmanager
from functools import cached_property
from itertools import chain, compress
from operator import add
from typing import NamedTuple

from spanprof.command import Fault, reading
from spanprof.program_text import (BARRIER, CREATING, OF_A_THREAD, Marks, Segment, after_words, marks_of_file, named,
                                   read_once, where)
from spanprof.recording import SEGMENTS, folder_of

OF_A_BLOCK = 1 << 16
COLUMNS = (("H", 2), ("I", 4), ("I", 4))     # kinds, tasks, costs
ADDED_UP = {"phases": 7, "delays": 3}       # lists that older recordings do not have, and the numbers of a row
OF_REGIONS = (OF_A_THREAD, BARRIER)


def file_beside(text):
    """Empty where there is none, as of a plain text."""
    path = os.path.join(folder_of(text), SEGMENTS) if folder_of(text) else ""
    return path if os.path.exists(path) else ""


def columns_in(data, count):
    """Block by block."""
    if len(data) != count * sum(size for _, size in COLUMNS):
        raise ValueError("%d bytes of columns" % len(data))
    out, at = [array(of) for of, _ in COLUMNS], 0
    for first in range(0, count, OF_A_BLOCK):
        for column, (_, size) in zip(out, COLUMNS):
            end = at + size * min(OF_A_BLOCK, count - first)
            column.frombytes(data[at:end])
            at = end
    return out


def widened(costs, exceptions):
    """Those of one word as the lower words of longer numbers; longer ones are listed."""
    words, out = array("I", bytes(8 * len(costs))), array("Q")
    words[::2] = costs
    out.frombytes(words.tobytes())
    for segment, cost in zip(exceptions[::2], exceptions[1::2]):
        out[segment] = cost
    return out


def of_numbers(row, count):
    """A row that has so many."""
    if len(row) != count:
        raise ValueError("a row of %d numbers" % len(row))
    return [number + 0 for number in row]


def of_barriers(kind, times, less, *waits):
    """A row with two lists of kinds, or None for code without cost, and times."""
    all_waits, behind = ([(place, time + 0) for place, time in some] for some in waits)
    return [*of_numbers((kind, times, less), 3), all_waits, behind]


def of_place(place, times, elapsed, code, teams):
    """The regions there, with the number of their threads, what elapsed, and what they asked for."""
    return [place + "", *of_numbers((times, elapsed, code), 3), [of_numbers(team, 3) for team in teams]]


def read_sums(code, reported):
    """What older recordings do not have, or those without times."""
    for name, count in ADDED_UP.items():
        if name in reported:
            setattr(code, name, [of_numbers(row, count) for row in reported[name]])
    if "barriers" in reported:
        code.barriers = [of_barriers(*row) for row in reported["barriers"]]
    if "regions" in reported:
        code.regions = reported["regions"]["tasks"], [of_place(*row) for row in reported["regions"]["places"]]


def kinds_named(code):
    """In its sums."""
    named = {kind for kind, *_ in chain(code.clauses, code.phases or (), code.delays or (), code.barriers or ())}
    return named.union(place for *_, waits, behind in code.barriers or () for place, _ in waits + behind)


def check(code):
    """That its numbers are of kinds and segments that it has."""
    kinds, segments = set(range(len(code.kinds))), range(len(code.of))
    if set(code.of) != kinds or not kinds_named(code) <= kinds | {None}:
        raise ValueError("kinds that it does not have")
    counts, costs, _ = map(sum, zip(*code.sums.values()))
    if {kind for pair in code.sums for kind in pair} != kinds or (counts, costs) != (len(segments), sum(code.cost)):
        raise ValueError("sums of other segments")
    if max(code.task) not in segments or not all(map(segments.__contains__, code.own)):
        raise ValueError("segments that it does not have")


def read_into(code, path, kind_of):
    """`kind_of` makes a kind of its words."""
    with reading(path), open(path, "rb") as file:
        data = file.read()
        at = data.rindex(b"\n", 0, -1)
        reported = json.loads(data[at:].decode("utf-8", "replace"))
        code.of, code.task, costs = columns_in(memoryview(data)[:at], reported["segments"])
        code.cost = widened(costs, reported["long"])
        for is_root, *words in reported["kinds"]:
            code.add(kind_of(is_root, *(word.strip() for word in words)))
        code.own, code.groups = (array("I", reported["own"][first::2]) for first in (0, 1))
        if "sums" in reported:      # older recordings have none
            code.sums = {(kind, following): (count + 0, cost + 0, most + 0)
                         for kind, following, count, cost, most in reported["sums"]}
        read_sums(code, reported)
        code.clauses = [(kind, words.replace(" ", ""), count + 0, again + 0)
                        for kind, words, count, again in reported["clauses"]]
        check(code)
    return code


class Kind(NamedTuple):
    """Segments that stand at one place: words as a Segment's. Of code that begins or follows a region's threads'
    `region` is the place of that."""
    is_root: bool
    task_place: str
    after: str = ""
    after_place: str = ""
    region: str = ""

    @property
    def at(self):
        """The construct that begins it."""
        return self.after_place if self.after else self.task_place

    @property
    def is_of_region(self):
        return self.at.startswith(OF_REGIONS)

    @property
    def begin(self):
        """Where that stands."""
        return self.region if self.is_of_region else self.at

    @property
    def end(self):
        """What ends the segment before it; nothing where that is the last of a task."""
        return "" if self.after == CREATING else self.begin


class Code:
    """`code[s]` is a Segment; `of[s]` is the number of its kind, and `names[of[s]]` that of its place."""

    def __init__(self):
        self.of, self.task, self.cost = array("I"), array("I"), array("Q")
        self.kinds, self.names, self.numbers = [], [], {}
        self.own, self.groups = array("I"), array("I")  # segments that begin a thread's own code, and the group of each
        # Of tasks: the kind of the first segment, what is written, how often, and how often right behind the same.
        self.clauses = []
        self.phases = self.delays = self.barriers = self.regions = None     # as the converter adds them up

    def add(self, kind):
        self.numbers[kind] = len(self.kinds)
        self.kinds.append(kind)
        self.names.append(Segment(not kind.is_root, kind.task_place, kind.after, kind.after_place).place())

    def number(self, kind):
        if kind not in self.numbers:
            self.add(kind)
        return self.numbers[kind]

    def __len__(self):
        return len(self.of)

    def __getitem__(self, s):
        return Segment(self.task[s], *self.kinds[self.of[s]][1:4], self.cost[s])

    def __iter__(self):
        return (self[s] for s in range(len(self)))

    def place(self, s):
        return self.names[self.of[s]]

    @property
    def places(self):
        """Of each segment, in their order."""
        return (self.names[number] for number in self.of)

    @cached_property
    def sums(self):
        """By the kinds of a segment and of the next one, which tells what ends it: how many there are, what they cost,
        and the most. Behind the last one stands the first."""
        width, found, following = len(self.kinds), defaultdict(lambda: array("Q")), self.of[1:]
        following.append(0)
        pairs = map(add, map(width.__mul__, self.of), following)
        for costs, cost in zip(map(found.__getitem__, pairs), self.cost):
            costs.append(cost)
        return {divmod(pair, width): (len(costs), sum(costs), max(costs)) for pair, costs in found.items()}

    @property
    def ends(self):
        """Of each kind of segments how many end at which construct; nothing for the last of a task."""
        found = [Counter() for _ in self.kinds]
        for (number, following), (count, *_) in self.sums.items():
            found[number][self.kinds[following].end] += count
        return found

    @property
    def tasks(self):
        """How many there are beside the root."""
        return sum(count for (kind, _), (count, *_) in self.sums.items() if not self.kinds[kind].after) - 1

    def firsts(self):
        """The first segment of each task, by their numbers."""
        is_first = [not kind.after for kind in self.kinds]
        return array("I", compress(range(len(self.of)), map(is_first.__getitem__, self.of)))

    def parts(self):
        """How many of the tasks stand for a thread's own code between two barriers."""
        return sum(self.kinds[self.of[s]].task_place == OF_A_THREAD for s in self.own)


class Groups:
    """Those that are open: of each its number, and the place of the innermost one around its code that has one."""

    def __init__(self, places):
        self.places, self.open, self.begun, self.closed = places, [(0, "")], 0, ""

    @property
    def region(self):
        """Where the innermost region is that has begun."""
        return self.open[-1][1] or self.closed

    def begin(self, number):
        self.begun += 1
        self.open.append((self.begun, self.places[-number] or self.open[-1][1]))

    def end(self):
        self.closed = self.open.pop()[1]


class Task(dict):
    """The numbers of the kinds of segments in tasks of one place, by the mark that begins each, 0 where the task does.
    Those of code around a region are not kept, since they have its place too."""

    def __init__(self, code, groups, is_root, place, marks):
        super().__init__()
        self.code, self.groups, self.known = code, groups, marks.known
        self.begins, self.of_regions = (is_root, place), {}

    def __missing__(self, number):
        region = self.groups.region
        found = self.of_regions.get((number, region))
        if found is None:
            mark = self.known[-number]
            kind = Kind(*self.begins, *(after_words(mark), mark.comment) * bool(number))
            if not kind.is_of_region:
                self[number] = self.code.number(kind)
                return self[number]
            found = self.of_regions[number, region] = self.code.number(kind._replace(region=region))
        if not number:
            self.code.own.append(len(self.code.of))
            self.code.groups.append(self.groups.open[-1][0])
        return found


def code_of(marks):
    """The segments of a text. The one that runs is always the one that began last."""
    code, words = Code(), [mark.word for mark in marks.known]
    groups = Groups([where(named("taskgroup", mark.comment)) for mark in marks.known])
    inside = [Task(code, groups, False, mark.comment, marks) for mark in marks.known]
    here, running, tasks, blocks, cost = Task(code, groups, True, "", marks), 0, 0, [], 0
    before, again = 0, Counter()
    add_kind, add_task, add_cost = code.of.append, code.task.append, code.cost.append
    add_kind(here[0])
    add_task(0)
    for number in marks.numbers:
        if number > 0:
            cost += number
            continue
        word = words[-number]
        if word == "taskgroup":
            blocks.append((number, here, running))
            groups.begin(number)
            continue
        add_cost(cost)
        cost = 0
        if word == "task":
            blocks.append((number, here, running))
            tasks += 1
            if number == before:
                again[number] += 1
            before = number
            here, running, number = inside[-number], tasks, 0
        elif word == "}":
            number, here, running = blocks.pop()
            if words[-number] == "taskgroup":
                groups.end()
        elif word != "taskwait":
            raise ValueError(word)
        add_kind(here[number])
        add_task(running)
    add_cost(cost)
    code.clauses = clauses_of(marks, inside, again)
    return code


def clauses_of(marks, inside, again):
    """Of the tasks that have some; `inside` has the kinds of their segments."""
    written = marks.numbers_of(lambda mark: mark.word == "task" and mark.code)
    counts = Counter(filter(written.__contains__, marks.numbers if written else ()))
    return [(inside[-number].get(0), marks.known[-number].code, count, again[number])
            for number, count in counts.items()]


@contextmanager
def of_version_1(name):
    try:
        yield
    except (IndexError, ValueError, OverflowError) as wrong:
        raise Fault("%s is not a text of version 1" % name) from wrong


def read_code(lines, name):
    """Of the lines of a text of version 1 that the program has taken."""
    with of_version_1(name):
        return code_of(Marks(lines))


@read_once
def code_in(path):
    """Of such a text in a file; of a recording's as its converter has cut it."""
    table = file_beside(path)
    if table:
        return read_into(Code(), table, Kind)
    with of_version_1(path):
        return code_of(marks_of_file(path))
