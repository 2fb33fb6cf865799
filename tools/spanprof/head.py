"""What the comments at the head of a recorded text tell of its recording: each line is a name and JSON; and what they
let one say of its program. What is proved is proved of the text alone.
"""
import json
import re
from dataclasses import dataclass, field
from itertools import takewhile
from typing import Dict, List, Optional, Tuple

from spanprof.command import DAMAGE
from spanprof.program_text import CALLED_FROM, where
from spanprof.remarks import Remark, occurrences, read_remark

LONG = ((10 ** 9, "s"), (10 ** 6, "ms"), (10 ** 3, "us"), (1, "ns"))
NANOSECONDS = {"ns": 1, "us": 1000, "ms": 1000000}
DIVISION = ("outside regions", "in other regions", "in serial code", "in loops", "in parts without tasks", "in tasks")
CLOCKS = {"own": "wall time without preemption", "wall": "wall time", "cpu": "processor time"}
UNREAD = "line of the head that is not read, as it is damaged: "
OLDER = "the head is that of an older version of the recorder, and is not read: convert the log again, or record again"
COVERS_ENOUGH = 95  # per cent of the program
OTHERWISE = "the program's may be %s (warnings)"


def lasting(nanoseconds):
    """In the unit that leaves a whole number, with three digits."""
    size, name = next((pair for pair in LONG if nanoseconds >= pair[0]), LONG[-1])
    digits = max(0, 3 - len(str(nanoseconds // size))) if size > 1 else 0
    return "%.*f %s" % (digits, nanoseconds / size, name)


def grouped(number):
    return "{:,}".format(number)


def counted(number, what):
    return "%d %s%s" % (number, what, "s" * (number != 1))


def nanoseconds_of(unit):
    """What a cost of 1 is; None of no unit."""
    number = re.match(r"(\d+) ns$", unit)
    return int(number[1]) if number else NANOSECONDS.get(unit)


class Lock(str):
    """Words on a lock of OpenMP, or on several together. `waiting` is how long threads waited, in the text's unit."""
    def __new__(cls, name, times, inside, waiting, unit=""):
        size = nanoseconds_of(unit)
        reported = [lasting(time * size) if size else "%d" % time for time in (inside, waiting)]
        out = super().__new__(cls, "%s: %s time%s, %s inside, %s waiting" % (
            name, grouped(times), "s" * (times != 1), *reported))
        out.name, out.waiting, out.reported = name, waiting, (name, times, inside, waiting, unit)
        return out

    def __getnewargs__(self):
        return self.reported    # of a copy


@dataclass
class Head:
    program: str = ""
    region: str = ""        # the place of the parallel region
    whole: str = ""         # where the text is of the whole program: how many regions and loops, in words
    pieces: int = 0         # of its loops and sections
    pieces_of: str = "loops"    # which of both there are
    parts: int = 0          # of its threads' own code, beside each other
    number: str = ""        # its place in time among the regions with tasks: `2 of 5`
    date: str = ""
    threads: Optional[int] = None
    clock: str = ""         # own, wall or cpu
    unit: str = ""          # of the costs; empty where they are declared and not measured
    elapsed: Optional[int] = None
    division: Dict[str, int] = field(default_factory=dict)  # the whole program's time, by where it passed
    covered: Optional[int] = None      # of the program's thread-time in code, what the text has
    thread_time: Optional[int] = None  # of the program, in code
    covers_at_most: bool = False       # recording ended before the program did
    not_covered: Dict[str, int] = field(default_factory=dict)  # the rest, by where it passed
    few_turns: Dict[str, List[int]] = field(default_factory=dict)   # by place of loops, and the threads that had them
    chunks: Dict[str, List[int]] = field(default_factory=dict)  # by place of loops, those that came soon, their turns
    divided: List[str] = field(default_factory=list)  # loops and sections, among as many threads as the run had
    beside: Optional[int] = None       # what the region's parts cost, but for the longest of each phase
    clock_reading: Optional[int] = None  # in nanoseconds
    clocks_differ: Dict[str, int] = field(default_factory=dict)  # affected, work, by, times
    taken_off: Dict[str, int] = field(default_factory=dict)      # the same of what others took, which costs leave out
    slept: Dict[str, int] = field(default_factory=dict)          # the same of code that slept, by the wall clock
    preempted: Dict[int, int] = field(default_factory=dict)      # by segment, what other programs took in it
    untimed: int = 0                   # of segments, before they were left in their midst
    most_held: Optional[int] = None    # inside one lock, one thread at a time
    runs: Optional[int] = None         # where the program was recorded several times, of which this is one
    spread: Dict[str, Tuple[int, int, int]] = field(default_factory=dict)  # of work, span: least, median, most
    functions: Dict[str, str] = field(default_factory=dict)  # by a place: `in merge, inlined into sort at sort.c:9`
    sources: Dict[str, str] = field(default_factory=dict)   # the paths of files, by their names
    remarks: List[Remark] = field(default_factory=list)
    locks: List[Lock] = field(default_factory=list)

    @property
    def is_measured(self):
        return bool(self.unit)

    @property
    def nanoseconds(self):
        """What a cost of 1 is; None where the text names no unit."""
        return nanoseconds_of(self.unit)

    @property
    def unit_of_costs(self):
        """For an axis or a table."""
        if not self.unit:
            return "units of the declared costs"
        return self.unit + (" of " + CLOCKS[self.clock] if self.clock in CLOCKS else "")


def comments(text):
    """The comments that stand before the first token, without their marks."""
    for line in text.split("\n"):
        words = line.strip()
        if words and not words.startswith("#"):
            return
        if words:
            yield words[1:].strip()


def head_text(path):
    """The comments at the top of a file, without the rest of it, which may be as long as memory."""
    with open(path, encoding="utf-8", errors="replace") as file:
        return "".join(takewhile(lambda line: line.startswith("#"), file))


def head_of(path):
    return read_head(head_text(path))


def number(reported):
    """A count, or a time in the text's unit."""
    if isinstance(reported, bool) or not isinstance(reported, int) or not 0 <= reported < 2 ** 63:
        raise TypeError("no number")
    return reported


def words(reported):
    if not isinstance(reported, str):
        raise TypeError("no words")
    return reported


def truth(reported):
    if not isinstance(reported, bool):
        raise TypeError("neither true nor false")
    return reported


def read_recorded(head, reported):
    threads = number(reported["threads"]) if reported.get("threads") else head.threads
    texts = {name: words(reported.get(name, getattr(head, name))) for name in ("program", "date", "clock", "unit")}
    head.threads = threads
    for name, value in texts.items():
        setattr(head, name, value)


def read_region(head, reported):
    head.region, head.number = words(reported.get("at", "")), "%d of %d" % (number(reported["number"]),
                                                                            number(reported["of"]))


def shared_out(loops, sections):
    """Names of how many there are of both, and of what these are."""
    names = ["loops"] * bool(loops or not sections) + ["sections"] * bool(sections)
    counts = [counted(loops, "loop")] * bool(loops or not sections) + \
        [counted(sections, "`sections` construct")] * bool(sections)
    return " and ".join(counts), " and ".join(names)


def read_whole(head, reported):
    """Also in words: how loops are written, which on other threads would be cut otherwise."""
    whole, pieces = counted(number(reported["regions"]), "region"), number(reported.get("pieces", 0))
    if pieces:
        counts, head.pieces_of = shared_out(number(reported["loops"]), number(reported.get("sections", 0)))
        whole += ", %s in %s; a chunk of k turns is k equal pieces" % (counts, counted(pieces, "piece"))
    if "together below" in reported:
        whole += ", together where they are shorter than %d ns" % number(reported["together below"])
    head.whole, head.pieces = whole, pieces


def read_coverage(head, reported):
    head.covered, head.thread_time, head.covers_at_most = \
        number(reported["text"]), number(reported["program"]), truth(reported.get("at most", False))


def read_divided(head, reported):
    if words(reported["what"]) == "code":
        head.beside, head.parts = number(reported["beside"]), number(reported.get("parts", 0))
    else:
        head.divided.append("%s, %s" % (reported["what"], occurrences(reported)))


def read_chunks(head, reported):
    """Places may have several lines."""
    chunks, turns = head.chunks.get(words(reported["at"]), (0, 0))
    head.chunks[reported["at"]] = [chunks + number(reported["times"]), turns + number(reported["turns"])]


def read_place(head, reported):
    function = "in " + words(reported["in"]) + "".join(", inlined into %s at %s" % (words(one["in"]), words(one["at"]))
                                                       for one in reported.get("inlined", []))
    head.functions.setdefault(words(reported["at"]), function)


def read_lock(head, reported):
    """One, or several others together."""
    name = "%d others together" % number(reported["others"]) if "others" in reported else \
        words(reported["kind"]) + (" at " + words(reported["at"]) if "at" in reported else "")
    head.locks.append(Lock(name, *(number(reported[part]) for part in ("times", "inside", "waiting")), head.unit))


def part_of_program(head):
    """What the text is of, in words; empty where it does not say."""
    return "the whole program" if head.whole else "region at %s" % head.region if head.region else ""


def difference(reported):
    return {name: number(reported[name]) for name in ("affected", "work", "by", "times")}


LINES = {
    "recorded": read_recorded, "region": read_region, "whole program": read_whole, "covers": read_coverage,
    "divided": read_divided, "lock": read_lock, "place": read_place, "short chunks": read_chunks,
    "few turns": lambda head, loop: head.few_turns.update({
        words(loop["at"]): [number(loop["turns"]), number(loop["threads"])]}),
    "source": lambda head, one: head.sources.update({words(one["file"]): words(one["path"])})}
# Those that are one field, and how it is read.
FIELDS = {
    "clock reading": ("clock_reading", number), "untimed": ("untimed", number), "elapsed": ("elapsed", number),
    "most held lock": ("most_held", number), "clocks differ": ("clocks_differ", difference),
    "slept": ("slept", difference), "taken off": ("taken_off", difference),
    "preempted": ("preempted", lambda reported: {number(segment): number(off) for segment, off in reported}),
    "not covered": ("not_covered", lambda reported: {words(name): number(value) for name, value in reported.items()})}


def take(head, name, reported):
    """What the line of a name tells."""
    if name in FIELDS:
        field_name, read = FIELDS[name]
        setattr(head, field_name, read(reported))
    elif name in DIVISION:
        head.division[name] = number(reported)
    else:
        LINES[name](head, reported)


def read_line(head, line):
    """A name and JSON. Other lines are comments of somebody's own."""
    name, _, value = line.partition(": ")
    if name == "remark":
        head.remarks.append(read_remark(value))
    if name not in (*LINES, *FIELDS, *DIVISION):
        return
    try:
        take(head, name, json.loads(value))
    except DAMAGE:
        if name == "recorded" or head.is_measured:     # else it is somebody's own
            is_older = name == "recorded" and not value.startswith("{")
            head.remarks.append(read_remark(OLDER if is_older else UNREAD + name))


def read_head(text):
    head = Head()
    for line in comments(text):
        read_line(head, line)
    return head


def with_function(head, name):
    """A place's name, such as `task at sort.c:9`, with the function that it is in."""
    function = head.functions.get(where(name))
    creation, called, callers = name.partition(CALLED_FROM)
    return "%s %s%s%s" % (creation, function, "," * bool(called) + called, callers) if function else name


def warning_lines(text):
    """The remarks and locks of a text's head as lines, so that no table stands without them."""
    head = read_head(text)
    return ["warning: " + remark for remark in head.remarks] + ["lock " + lock for lock in head.locks]


def moved(head, name):
    """The directions, of `low` and `high`, in which remarks say that the text's work or span differs."""
    ways = {getattr(remark, name) for remark in head.remarks}
    return (ways - {"", "either"}) | ({"low", "high"} if "either" in ways else set())


def tenths(part, whole):
    """A share in per cent, rounded down to a tenth."""
    return "%d.%d" % divmod(1000 * part // whole, 10) if whole else "100.0"


def share_covered(head):
    """Of the program's thread-time in code; empty where the head does not tell it."""
    if head.covered is None or not head.thread_time:
        return ""
    return "%s%s %% of the program's thread-time" % (
        "at most " if head.covers_at_most else "", tenths(head.covered, head.thread_time))


def is_partial(head):
    """Whether the head says that the text has less of the program than would do for all of it."""
    return bool(share_covered(head)) and (
        head.covers_at_most or 100 * head.covered < COVERS_ENOUGH * head.thread_time)


def pieces_words(head):
    """How many, and of what; empty where there are none."""
    pieces = head.pieces
    return "{:,} pieces of {}".format(pieces, head.pieces_of) if pieces else ""


def tasks_made(answers):
    """How many of the text's tasks the program makes."""
    return max(0, answers.tasks - answers.head.pieces - answers.parts)


def is_of_one_thread(head):
    return head.threads == 1


def is_divided(head):
    """Whether code is divided among the run's threads: by loops or sections, or else a twentieth of the text."""
    return bool(head.divided) or head.beside is not None and 20 * head.beside >= (head.covered or 0)


def why_not_of_more_threads(head):
    """Why the text says nothing of the program on more threads; empty where nothing is known against it."""
    if is_of_one_thread(head):
        return "it was recorded on one thread, and says nothing about more"
    if is_divided(head):
        return "on another number of threads its code is divided differently"
    return ""


def span_may_be_less(head):
    return "high" in moved(head, "span")


def gain_may_be_more(head):
    """Whether a remark says that the program's work / span may be above the text's."""
    return span_may_be_less(head) or "low" in moved(head, "work")


def gain_may_be_less(head):
    """Whether something that the text does not have keeps a run from its greedy bound."""
    return bool(head.locks) or "low" in moved(head, "span") or "high" in moved(head, "work")


def against_span(head):
    """What speaks against it that the program ends no sooner than the text's span; empty where nothing is known."""
    return why_not_of_more_threads(head) or (OTHERWISE % "less" if span_may_be_less(head) else "")


def against_parallelism(head):
    """What speaks against it that the program gains no more than the text's work / span."""
    return why_not_of_more_threads(head) or (OTHERWISE % "more" if gain_may_be_more(head) else "")


def speaks_of(head, threads):
    """Whether the text is that of a run on so many threads."""
    return threads == head.threads or not why_not_of_more_threads(head)


def least_end(answers, threads):
    """No run of the recorded code ends before: by `least`, and by the lock that is held for the longest time."""
    return max(answers.curve[threads]["least"], answers.head.most_held or 0)


def lock_binds(answers, threads):
    return least_end(answers, threads) > answers.curve[threads]["least"]
