"""Where the time of a recorded run's threads went: the sums that spanprof_large tells of the timed document, and what
the recording tells beside them, in four lines, and as JSON. docs/MODEL.md has the words.
"""
import os
import re
from array import array
from collections import Counter
from contextlib import contextmanager
from dataclasses import dataclass, field
from functools import cached_property
from heapq import heappop, heappush
from itertools import chain, count
from typing import List, NamedTuple, Optional

from spanprof import client
from spanprof.client import proved
from spanprof.command import Fault, naming
from spanprof.head import lasting
from spanprof.recording import document, head_in, open_recording
from spanprof.remarks import UNFINISHED

FAULTS = {
    "NotTimed": "segment %s has no times",
    "ThreadCount": "the run had more threads than the 1,024 that spanprof_large takes",
    "Moments": "the region lasted longer than the 10^15 ns that spanprof_large takes",
    "NoThread": "segment %s is on none of the threads",
    "EndsEarly": "segment %s ends before it begins: the processors' clocks differ",
    "OutOfTime": "segment %s is not within the region: the processors' clocks differ",
    "TooSoon": "segment %s begins before segment %s, which it waits for, has ended: the processors' clocks differ, or "
               "the runtime did not wait",
    "NotApart": "segment %s begins while another one runs on its thread"}
NO_TIMES_KEPT = "several of the program's threads meet regions, or it has more tasks and chunks than times are kept of"
MOST_PLACES = 2
LEAST = 0.0005      # of the threads' time, from which on a part is reported


class NoBreakdown(Exception):
    """Why there is none."""


def in_words(line):
    """An error line of the program, for people."""
    name, *numbers = re.sub("^error: ", "", line).split() or [""]
    fault = FAULTS.get(name)
    if not fault or fault.count("%s") != len(numbers):
        return "spanprof_large account: " + line
    return fault % tuple(numbers)


def answered(read, words, path, *more):
    """What `read`, of the client, makes of `account` with these words and the timed document in a file."""
    with timed(path), open(path, "rb") as document:
        return read(["account", *words], document, *more)


@contextmanager
def timed(path):
    """Has what the program refuses there, of a file of times or a document with them, be why there is no breakdown."""
    try:
        with naming(path):
            yield
    except client.Refused as refused:
        raise NoBreakdown(in_words(refused.answer)) from refused
    except Fault as wrong:
        raise NoBreakdown(str(wrong)) from wrong


class Rows(NamedTuple):
    """When each segment was ready, began and ended, in nanoseconds since the region began; in columns."""
    thread: array
    ready: array
    begin: array
    end: array

    @property
    def on_few_threads(self):
        """The same on no more threads than ran at once."""
        threads, free, running = array("q", bytes(8 * len(self.begin))), [], []
        for segment in sorted(range(len(threads)), key=self.begin.__getitem__):
            begin, end = self.begin[segment], self.end[segment]
            while running and running[0][0] <= begin:
                free.append(heappop(running)[1])
            if end > begin:
                threads[segment] = free.pop() if free else len(running)
                heappush(running, (end, threads[segment]))
        return self._replace(thread=threads)


def idle_by_place(path, rows, places, threads, elapsed):
    """Delayed and starved time by the places of segments, the longest first, as spanprof_large adds it up."""
    names, first = list(dict.fromkeys(places)), rows.ready[0]
    numbers = {name: number for number, name in enumerate(names)}
    times = chain(["times %d %d %d\n" % (threads, first, first + elapsed)],
                  map("%d %d %d %d\n".__mod__, zip(count(), rows.thread, rows.begin, rows.end)))
    return [longest_first(zip(parts, names))
            for parts in client.places(path, map(numbers.get, places), client.IDLE, times)]


def longest_first(parts):
    return {name: part for part, name in sorted(parts, reverse=True) if part}


def by_name(names, parts):
    """Sums of these parts, of which several names may be alike."""
    sums = Counter()
    for name, part in zip(names, parts):
        sums[name] += part
    return longest_first((part, name) for name, part in sums.items())


@dataclass
class Blocked:
    """Of the time in code, in nanoseconds: what was no code of the program."""
    preempted: int = 0      # the system had put the thread off
    asleep: int = 0         # the code slept, or waited by itself
    at_locks: int = 0       # of OpenMP

    @property
    def all(self):
        return self.preempted + self.asleep + self.at_locks


@dataclass
class TimeBreakdown:
    """In nanoseconds, over all threads."""
    threads: int
    elapsed: int
    busy: int
    delayed: int
    starved: int
    outside: int
    blocked: Blocked = field(default_factory=Blocked)
    recorder: int = 0       # of the time in code, by the wall clock
    by_processor: bool = False      # costs are read on that clock: then it is among what was preempted
    of_whole: bool = False  # the program, and not of a region
    left_out: int = 0       # code of the region that has no times here, and is idle
    path: str = ""          # of the document
    rows: Optional[Rows] = None
    places: List[str] = field(default_factory=list)     # of the segments
    idle_parts: Optional[list] = None   # of idle time, where they are known without rows

    @property
    def whole(self):
        return self.threads * self.elapsed

    @property
    def code(self):
        return self.busy - self.blocked.all - self.recorder

    @property
    def parts(self):
        """What the threads' time is made of; the parts add up to it."""
        return {"code": self.code, "recorder": self.recorder, "preempted": self.blocked.preempted,
                "asleep": self.blocked.asleep, "at locks": self.blocked.at_locks, "delayed": self.delayed,
                "starved": self.starved, "outside": self.outside}

    @cached_property
    def idle(self):
        """Delayed and starved time by place: the parts add up to the sums. Without rows there are no places."""
        if self.idle_parts:
            return self.idle_parts
        if not self.rows:
            return {}, {}
        return idle_by_place(self.path, self.rows, self.places, self.threads, self.elapsed)

    @property
    def delayed_by(self):
        return self.idle[0]

    @property
    def starved_by(self):
        return self.idle[1]


def at_locks(head):
    """How long threads waited for locks of OpenMP, in the text's unit."""
    return sum(lock.waiting for lock in head.locks)


def within(parts, whole):
    """Each part is seen by itself; together they are no more than the whole."""
    out = []
    for part in parts:
        out.append(max(0, min(part, whole - sum(out))))
    return out


def divide_busy(found, head, work):
    """By the wall clock both clocks tell what held code up, and what segments lasted beyond their costs and their
    waiting for locks is the recorder's, but for what costs leave out. By the processor's clock it is held up for as
    long as it lasted beyond its costs, the recorder's time included."""
    unit, taken_off = head.nanoseconds, head.taken_off.get("by", 0)
    by = head.clocks_differ.get("by", taken_off)
    beyond = min(max(found.busy - (work - head.untimed) * unit, 0), found.busy)
    waiting = at_locks(head) * unit
    if head.clock == "cpu":
        asleep, waiting = within((by * unit, waiting), beyond)
        return Blocked(beyond - asleep - waiting, asleep, waiting), 0
    recorder = beyond - waiting - taken_off * unit
    *parts, recorder = within((by * unit, head.slept.get("by", 0) * unit, waiting, recorder), found.busy)
    return Blocked(*parts), recorder


def breakdown_of(head, work, path, places=()):
    """That of the timed document in a file, which is a run of the text. Without the places of its segments, as of a
    long text, the rows are not asked for, and idle time has no places."""
    found = TimeBreakdown(**client.named_numbers(answered(client.ask, [], path)), path=path, places=list(places))
    if places:
        found.rows = Rows(*answered(client.columns, ["--rows"], path, Rows._fields))
        if len(found.rows.thread) != len(places):
            raise NoBreakdown("there are times of %d segments, and not of %d" % (len(found.rows.thread), len(places)))
    return divide(found, head, work)


def divide(found, head, work):
    """What the head of the text tells of the time in code."""
    # lines that are rounded to whole units may have less than the text covers
    found.blocked, found.recorder = divide_busy(found, head, max(work, head.covered or 0))
    found.by_processor = head.clock == "cpu"
    found.of_whole = bool(head.whole)
    found.left_out = (head.not_covered.get("of this region", 0) + head.untimed) * head.nanoseconds
    return found


def breakdown_by_kind(head, work, text, of, names, times):
    """The same of a recording's text, each segment of which has the number of a kind with a name, and all times stand
    in a file: without rows, of which there may be millions."""
    with timed(times):
        threads, first, last = head_in(times)
        busy, *idle = client.places(text, of, (client.BUSY, *client.IDLE), file_of_times=times)
    parts = [sum(busy), *map(sum, idle)]
    found = TimeBreakdown(threads, last - first, *parts, threads * (last - first) - sum(parts))
    found.idle_parts = [by_name(names, one) for one in idle]
    return divide(found, head, work)


def times_name(path):
    """How the document of a text and its times is named to people; empty where it has none."""
    recording = open_recording(path)
    if recording.folder and recording.times:
        return "text and times of " + recording.name
    return os.path.basename(recording.times)


def why_none(head):
    """Why the converter wrote no timed document; empty where nothing is known."""
    if any(remark.name in UNFINISHED for remark in head.remarks):
        return "tasks did not run to their ends"
    return NO_TIMES_KEPT if head.whole else ""


def recorded_breakdown(answers):
    """That of the timed document beside the text; or None, and why."""
    recording = open_recording(answers.path)
    if not recording.times or not answers.head.nanoseconds:
        return None, why_none(answers.head)
    try:
        places = () if answers.is_long else list(answers.code.places)
        return breakdown_of(answers.head, answers.work, document(recording), places), ""
    except (NoBreakdown, Fault) as fault:
        return None, str(fault)


def proved_sums():
    return proved("the four sums are proved of the recorded text and these times")


def of_places(parts, words):
    """The first places of idle time, each with its share of that time."""
    whole = sum(parts.values())
    shown = ["%s (%.0f %%)" % (place, 100 * part / whole) for place, part in list(parts.items())[:MOST_PLACES]
             if part and 200 * part >= whole]
    return words + ", ".join(shown) if shown else ""


def blocked_words(found, share):
    off = "preempted or in the recorder" if found.by_processor else "preempted"
    parts = [(found.blocked.preempted, off), (found.blocked.asleep, "asleep"),
             (found.blocked.at_locks, "waiting for locks")]
    reported = ["%s %s" % (share(part), name) for part, name in parts if part >= LEAST * found.whole and part]
    return "; %s blocked in it: %s" % (share(found.blocked.all), ", ".join(reported)) if reported else ""


def breakdown_lines(found):
    """Shares are of threads times elapsed time."""
    def share(part):
        return "%.1f %%" % (100 * part / found.whole if found.whole else 0)

    def idle(part, by, words):
        return share(part), of_places(by, words) if part >= LEAST * found.whole else ""

    recorder = ", %s the recorder's" % share(found.recorder) if found.recorder >= LEAST * found.whole > 0 else ""
    lines = ["of %d x %s: %s in your code%s%s (measured)" % (
                 found.threads, lasting(found.elapsed), share(found.code), recorder, blocked_words(found, share)),
             "%s scheduling delay%s (measured)" % idle(found.delayed, found.delayed_by, "; ready: "),
             "%s idle%s (measured)" % idle(found.starved, found.starved_by, "; running: "),
             "%s startup and shutdown of the %s (measured); %s" % (
                 share(found.outside), "program" if found.of_whole else "region", proved_sums())]
    if found.left_out >= 2 * LEAST * found.whole > 0:
        lines.append("up to %s in code of the region that has no times, and is idle here (measured)" %
                     share(found.left_out))
    return lines


def lines_of(found, why=""):
    """What the summary tells of an account, or why there is none."""
    return breakdown_lines(found) if found else ["unavailable: " + why] if why else []


def as_json(found):
    """Times in nanoseconds, over all threads."""
    return {"threads": found.threads, "elapsed": found.elapsed, "parts": found.parts,
            "delayed beside": found.delayed_by, "starved while": found.starved_by, "left out": found.left_out,
            "unit": "ns", "measured": "all times", "proved": proved_sums()}
