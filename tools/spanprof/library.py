"""What spanprof tells of a text of OpenMP tasks, in this process: libspanprof, without any other package.

    program = spanprof.read("mine.tasks")
    program.work, program.span, program.slack(), program.greedy(4).end, program.what_if({3: 10}).span
"""
import array
import ctypes
import functools
from typing import NamedTuple, Sequence

from spanprof import MOST_THREADS, c_calls
from spanprof.c_calls import (NO_THREAD, OF_LIMITS, Accounted, Analysed, Bounded, Certified, Measured,
                              NoLibrary, Place, Refused, answering, bytes_of, called, count_of, for_caller,
                              numbers_of, passed, refuse, room)

__all__ = ["MOST_THREADS", "NO_THREAD", "About", "Account", "Bounds", "Certificate", "NoLibrary", "Program", "Refused",
           "Run", "about", "check", "parse", "read"]


class About(NamedTuple):
    """Which library answers, and whether it is one that was proved, whose checksum stands beside it."""
    library: str
    proved: bool


class Run(NamedTuple):
    """A greedy schedule: when each segment starts and on which thread, and the end."""
    starts: Sequence
    threads: Sequence
    end: int


class Bounds(NamedTuple):
    """No schedule ends before `least`, and no greedy schedule after `greatest`."""
    least: int
    greatest: int


class Account(NamedTuple):
    """How long a run's threads, together, were busy, idle while a segment was ready, idle while none was, and outside
    of all segments; and when each segment's last predecessor had ended."""
    busy: int
    delayed: int
    starved: int
    outside: int
    ready: Sequence


class Certificate(NamedTuple):
    """A certificate that holds: no legal schedule of its program ends before `ends_at`, and one ends just then."""
    segments: int
    ends_at: int


class Program:
    """A text's program under its own costs, or under those of `what_if`. Nothing about it changes. Without `any_size`
    the text keeps the limits of programs."""

    def __init__(self, text, costs=None, any_size=False):
        self.text, self.any_size = bytes_of(text), any_size
        self._given = array.array("Q") if costs is None else numbers_of(costs)
        measured = Measured()
        self._asked("spanprof_measure", ctypes.byref(measured))
        self.segments, self.work, self.span = measured.segments, measured.work, measured.span

    def _call(self, name, *words):
        """Calls the library about the text."""
        called(name, self.text, ctypes.c_bool(self.any_size), *words)

    def _asked(self, name, *words):
        """The same under the costs."""
        self._call(name, *passed(self._given), *words)

    @functools.cached_property
    def _segments(self):
        tasks, costs = room("I", self.segments), room("Q", self.segments)
        self._call("spanprof_segments", *passed(tasks), *passed(costs))
        return tasks, costs

    @property
    def tasks(self):
        """The task of each segment."""
        return for_caller(self._segments[0][:])

    @property
    def costs(self):
        """The cost of each segment."""
        return for_caller((self._given or self._segments[1])[:])

    @functools.cached_property
    def _analysis(self):
        starts, slacks, path = room("Q", self.segments), room("Q", self.segments), room("I", self.segments)
        found = Analysed()
        self._asked("spanprof_analyse", *passed(starts), *passed(slacks), *passed(path), ctypes.byref(found))
        return starts, slacks, path[:found.path_length]

    def starts(self):
        """The earliest start of each segment."""
        return for_caller(self._analysis[0][:])

    def slack(self):
        """How long each segment may be put off, by itself, with the span as it is."""
        return for_caller(self._analysis[1][:])

    def path(self):
        """The segments of the critical path."""
        return for_caller(self._analysis[2][:])

    def greedy(self, threads):
        """The greedy schedule on so many threads."""
        starts, on, end = room("Q", self.segments), room("I", self.segments), ctypes.c_uint64()
        self._asked("spanprof_greedy", count_of(threads), *passed(starts), *passed(on), ctypes.byref(end))
        return Run(for_caller(starts), for_caller(on), end.value)

    def curve(self, upto):
        """The ends of the greedy schedules on 1, 2, .. threads."""
        count_of(upto)
        ends = room("Q", upto)
        self._asked("spanprof_curve", *passed(ends))
        return for_caller(ends)

    def bounds(self, threads):
        """Between which ends each greedy schedule on so many threads ends."""
        found = Bounded()
        refuse(c_calls.shared().spanprof_bounds(ctypes.c_uint64(self.work), ctypes.c_uint64(self.span),
                                                count_of(threads), ctypes.byref(found)), Place())
        return Bounds(found.least, found.greatest)

    def is_legal(self, starts):
        """Whether no segment starts before those that have to precede it have ended."""
        legal = ctypes.c_bool()
        self._asked("spanprof_is_legal", *passed(numbers_of(starts)), ctypes.byref(legal))
        return legal.value

    def what_if(self, costs):
        """The same program under other costs: those of some segments, {segment: cost}, or one for each."""
        if not hasattr(costs, "items"):
            if len(costs) != self.segments:
                raise Refused("CostCount")
            return Program(self.text, costs, self.any_size)
        other = [int(cost) for cost in self.costs]
        for segment, cost in costs.items():
            if not 0 <= segment < self.segments:
                raise Refused("UnknownSegment")
            other[segment] = cost
        return Program(self.text, other, self.any_size)

    def account(self, threads, begins, ends, count=None, first=None, last=None):
        """Where the time of a run's threads went, by the thread, the begin and the end of each segment. Without other
        words it was on as many threads as are named, from the first begin to the last end."""
        threads = numbers_of(threads, "I", "NoThread")
        begins, ends = (numbers_of(moments, "Q", "OutOfTime") for moments in (begins, ends))
        count = max(threads, default=0) + 1 if count is None else count
        first = min(begins, default=0) if first is None else first
        last = max(ends, default=0) if last is None else last
        found, ready = Accounted(), room("Q", self.segments)
        self._call("spanprof_account", count_of(count), ctypes.c_uint64(first), ctypes.c_uint64(last), *passed(threads),
                   *passed(begins), *passed(ends), *passed(ready), ctypes.byref(found))
        return Account(found.busy, found.delayed, found.starved, found.outside, for_caller(ready))


def about():
    """Which library answers here."""
    return About(*answering())


def parse(text):
    """The program of a text: of any size, where it is beyond the limits."""
    try:
        return Program(text)
    except Refused as refused:
        if refused.kind not in OF_LIMITS:
            raise
    return Program(text, any_size=True)


def read(path):
    """The program of a file."""
    with open(path, "rb") as file:
        return parse(file.read())


def check(document, any_size=False):
    """What a certificate shows, as `spanprof certify` writes it, whoever wrote it. One that does not hold is refused
    with the first test that it fails."""
    found = Certified()
    called("spanprof_check", bytes_of(document), ctypes.c_bool(any_size), ctypes.byref(found))
    return Certificate(found.segments, found.ends_at)
