"""A recording as predictions take it, in nanoseconds."""
import os
from dataclasses import dataclass, replace
from typing import Optional, Tuple

from spanprof import client
from spanprof.command import Fault, reading
from spanprof.head import Head, comments, is_divided, read_head
from spanprof.predict.burden import text_with
from spanprof.predict.program import Program, read_program
from spanprof.predict.replay import replayed
from spanprof.predict.times import times_of
from spanprof.program_text import has_loops
from spanprof.recording import open_recording, times_in
from spanprof.segment_table import read_code

RUNTIMES = LLVM, GNU = "llvm", "gnu"


@dataclass
class Recorded:
    """`outside` is the region's time before its code begins and after it has ended. Program and text are without the
    time that other programs took meanwhile."""
    program: Program
    threads: int
    elapsed: int = 0
    outside: int = 0
    held: int = 0           # inside the most held lock, one thread at a time
    name: str = ""
    head: Optional[Head] = None
    text: str = ""
    is_timed: bool = True
    arrivals: Tuple[int, ...] = ()  # of the threads, after the code has begun
    dispatch: Optional[int] = None  # what it took to begin a task, where the times tell it
    resumption: int = 0     # and to go on behind a wait that was over
    preempted: int = 0      # what other programs took
    is_changed: bool = False    # the text is that of a changed program
    runtime: str = LLVM         # on which it was recorded
    as_run: int = 0     # on gcc's runtime, what it took without the recorder and other programs, by its times
    before: Optional["Recorded"] = None     # of a changed text, the recording

    @property
    def work(self):
        return sum(self.program.costs)


def why_not(head, text):
    """Why a text tells no time of its program; empty where nothing is known against it."""
    if has_loops(text) or not head.nanoseconds or not head.threads:
        return "it is no recording"
    if head.whole:
        return "it is of a whole program"
    return "its code is divided among its threads" if is_divided(head) else ""


def without_preempted(text, head):
    """The text without what other programs took of its segments, and how much that was."""
    costs, taken = list(read_code(text.split("\n"), head.program).cost), 0
    for segment, off in head.preempted.items():
        if segment < len(costs):
            taken += min(off, costs[segment])
            costs[segment] -= min(off, costs[segment])
    return text_with([line for line in comments(text) if not line.startswith("preempted: ")], text, costs), taken


def recorded_as(text, name, outside=None):
    """A text that spanprof has taken; without `outside` it has no times."""
    head = read_head(text)
    why = why_not(head, text)
    if why:
        raise Fault("%s: no time is predicted: %s" % (name, why))
    text, taken = without_preempted(text, head) if head.preempted else (text, 0)
    program = read_program(text)
    program.costs = [cost * head.nanoseconds for cost in program.costs]
    return Recorded(program, head.threads, (head.elapsed or 0) * head.nanoseconds, outside or 0,
                    (head.most_held or 0) * head.nanoseconds, os.path.basename(name), head, text, outside is not None,
                    preempted=(taken or head.taken_off.get("by", 0)) * head.nanoseconds)


def with_text(base, text):
    """The same recording with a changed text in its unit: the times around its code stay."""
    program = read_program(text)
    program.costs = [cost * base.head.nanoseconds for cost in program.costs]
    return replace(base, program=program, text=text, is_changed=text != base.text, before=base)


def take_times(one, path):
    """What the file of its times tells."""
    (_, first, last), columns = times_in(path)
    one.outside, one.is_timed = min(columns[2]) - first + last - max(columns[3]), True
    times = times_of(one.program, list(zip(*columns)))
    if times:
        one.arrivals, one.dispatch, one.resumption = times.arrivals(), times.dispatch(), times.resumption()
    if times and one.runtime == GNU:
        one.as_run = replayed(times, one.head.clock_reading or 0) + one.outside


def recorded(path, name="", runtime=LLVM):
    """That of a file, with the times beside it where they are there."""
    one, times = recorded_as(client.read(path), name or path), open_recording(path).times
    one.runtime = runtime
    if times:
        with reading(name or path):
            take_times(one, times)
    return one
