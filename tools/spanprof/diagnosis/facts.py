"""What is known of one recorded run, as plain data: everything else of a diagnosis is made of it.

Its locks are those that were recorded, and those inside functions of the C library, which samples show. What threads
starved is of the run's own doing, or because other programs took processors: costs are without the time in which a
thread was preempted, so a schedule of the text tells how the run would have gone without them.
"""
import json
import re
import statistics
from bisect import bisect_right
from collections import Counter
from dataclasses import dataclass, field, replace
from itertools import accumulate, compress
from typing import Dict, List, Optional

from spanprof import client
from spanprof.answers import numbers_of
from spanprof.command import reading
from spanprof.diagnosis.calls import (AT_START, ONE_AT_A_TIME, RUNTIME, Sampled, calls_of, in_system, interpreter_of,
                                      is_loading, is_of_ranks, is_start, plain, shares)
from spanprof.diagnosis.losses import divided, is_crowded
from spanprof.diagnosis.places import A_START, AROUND_REGIONS, TASK, in_text, needless_barriers, read_places
from spanprof.head import head_of, number, words
from spanprof.program_text import BEGINNING, TextFile, read_once
from spanprof.recording import UNKNOWN, document, head_in, program_of, times_in, union
from spanprof.segment_table import code_in
from spanprof.time_breakdown import NoBreakdown, Rows, breakdown_by_kind, breakdown_of, idle_by_place

LEAST_INSIDE = 0.05    # of a place's samples, in a function that has a lock
LITTLE = 0.02       # of the time in code: threads preempted for less keep others waiting for little
MOST_SEGMENTS = 300000       # segments of a text whose schedule is asked for: some seconds
RUNTIMES = {"llvm": "LLVM", "gnu": "gcc"}
EXCLUDING = "mutexinoutset"     # the remark of a text that has inoutset in its place
OWN_CLOCK = "own"               # by which costs are without the time in which a thread was preempted
# Nanoseconds: gcc's runtime keeps no threads for regions inside others, and makes them for each. The least that was
# measured, on a busy machine, was 63 and 96 us; on an idle one it may be less.
A_TEAM = 80000
OF_GCC = "lines of gcc"         # that of a text whose tasks or waits are of gcc's code


@dataclass
class Held:
    """Times are in nanoseconds."""
    place: str
    kind: str
    times: int
    inside: int
    waited: int
    function: str = ""      # of the C library, that has it; then the place is that of the code which called it


def locks_of_lines(lines):
    """Of lines of JSON."""
    for line in lines:
        one = json.loads(line)
        yield Held(words(one.get("place", "")), words(one.get("kind", "")), *(number(one[name]) for name in (
            "times", "inside_ns", "waited_ns")))


def locks_of_head(head):
    """Of the text's own lines, in its unit."""
    for lock in head.locks:
        name, times, inside, waiting, _ = lock.reported
        kind, _, place = name.partition(" at ")
        yield Held(place, kind, times, inside * (head.nanoseconds or 1), waiting * (head.nanoseconds or 1))


def locks_of(path, head):
    """Of a file, or else of the text's head; the longest waited for first."""
    found = []
    if path:
        with reading(path), open(path, encoding="utf-8") as lines:
            found = list(locks_of_lines(lines))
    return sorted(found or locks_of_head(head), key=lambda lock: -lock.waited)


def by_choice(usage):
    """Of all switches from a thread to another those with which it began to wait; the others took its processor."""
    waits, others = ((usage or {}).get(name) or 0 for name in ("voluntary_switches", "involuntary_switches"))
    return waits / (waits + others) if waits else 0.0


def taken_from(facts, name, share):
    """Of code, and of its time off the processor, what such a function took of a place; it is waiting at a lock."""
    asleep, preempted = facts.asleep_by.get(name, 0), by_choice(facts.usage) * facts.preempted_by.get(name, 0)
    code = max(0, facts.places[name].cost - asleep)
    parts = {part: int(share * time) for part, time in (("code", code), ("asleep", asleep), ("preempted", preempted))}
    for part, time in parts.items():
        setattr(facts, part, getattr(facts, part) - time)
        if part != "code" and time:
            getattr(facts, part + "_by")[name] -= time
    return sum(parts.values())


def set_library_locks(facts):
    """Where several threads are in such a function at once, which costs them most of what it takes."""
    for name, ran in facts.calls.ran.items():
        place = facts.places.get(name)
        for function, share in shares(ran, in_system).items() if place and place.has_several else ():
            if function in ONE_AT_A_TIME and share >= LEAST_INSIDE:
                waited = taken_from(facts, name, share)
                facts.at_locks += waited
                facts.in_library += waited
                facts.locks.append(Held(name, "lock", 0, 0, waited, function))
    facts.locks.sort(key=lambda lock: -lock.waited)


def is_disturbed(facts):
    pieces = sum(place.pieces for place in facts.places.values())
    return facts.preempted > LITTLE * (facts.code + facts.preempted) and pieces <= MOST_SEGMENTS


def starved_alone(path, places, threads):
    """By place, how long threads starve in the greedy run of a text; nothing where that takes too much memory."""
    words = ["greedy", "--threads", str(threads)]
    try:
        begin, end = client.columns(words, TextFile(path), ["start", "end"])
        rows = Rows(begin, begin, begin, end).on_few_threads
        return idle_by_place(path, rows, places, threads, max(end))[1]
    except client.Refused:
        return {}


def set_disturbed(facts, alone):
    """What they starved more is due to other programs, as far as these had processors: while one thread was preempted,
    all others may have waited."""
    off = min(max(0, facts.starved - sum(alone.values())), (facts.threads - 1) * facts.preempted)
    heaviest = max(facts.places, key=lambda name: facts.places[name].cost)
    facts.starved_by = divided(facts.starved - off, alone)
    facts.starved_by[heaviest] = facts.starved_by.get(heaviest, 0) + facts.starved - sum(facts.starved_by.values())
    facts.starved_off = {heaviest: off}


@dataclass
class Region:
    """All regions that began at one place."""
    place: str
    threads: int
    elapsed: int
    asked: Optional[int] = None     # by those with the smallest teams
    times: int = 1
    together: int = 1       # at most so many at a time
    teams: Dict[int, int] = field(default_factory=dict)     # what elapsed with so many threads
    added: int = 0          # the time of threads that regions inside it had besides
    code: int = 0           # of all threads

    @property
    def sizes(self):
        return self.teams or {self.threads: self.elapsed}


@dataclass
class Facts:
    """Times are in nanoseconds, and those of threads are added up. What a recording does not have is None."""
    program: str = ""
    whole: bool = True                  # the text is of the whole program
    runtime: str = ""
    threads: int = 1
    asked: Optional[int] = None
    processors: Optional[int] = None    # that the program may use
    of_machine: Optional[int] = None    # that there are
    elapsed: int = 0
    work: int = 0
    span: int = 0
    tasks: int = 0
    code: int = 0
    recorder: int = 0
    preempted: int = 0
    asleep: int = 0
    at_locks: int = 0
    in_library: int = 0                 # of that, at locks inside functions of the C library
    delayed: int = 0
    starved: int = 0
    outside: int = 0
    delayed_by: Dict[str, int] = field(default_factory=dict)
    starved_by: Dict[str, int] = field(default_factory=dict)
    starved_off: Dict[str, int] = field(default_factory=dict)       # of `starved_by`, due to other programs
    starting_by: Dict[str, float] = field(default_factory=dict)     # of `delayed_by`, while regions start and end
    asleep_by: Dict[str, int] = field(default_factory=dict)
    preempted_by: Dict[str, int] = field(default_factory=dict)
    taken: int = 0                      # of the threads' time, by other programs, where that is much
    calls: Sampled = Sampled({}, {})
    places: dict = field(default_factory=dict)
    functions: Dict[str, str] = field(default_factory=dict)
    sources: Dict[str, str] = field(default_factory=dict)
    chunks: Dict[str, List[int]] = field(default_factory=dict)     # by place of loops: short ones, and their turns
    few_turns: Dict[str, List[int]] = field(default_factory=dict)  # by place of loops, and the threads that had them
    locks: list = field(default_factory=list)
    regions: List[Region] = field(default_factory=list)     # inside no other
    inner: List[Region] = field(default_factory=list)       # with threads of their own
    denied: Dict[str, int] = field(default_factory=dict)    # by inner region that got one thread: what others lost
    tasks_in_regions: bool = True       # or all outside, where there is one thread
    is_of_gcc: bool = False             # some constructs have the line of a statement before them
    barriers: dict = field(default_factory=dict)    # by place: that of a needless barrier, and its share of the waits
    interpreter: str = ""               # the file of that which runs the program
    scheduled: Optional[int] = None     # the end of the text's greedy run on `usable` threads, where more shared these
    is_imported: bool = False           # of another tool's tasks
    needless: set = field(default_factory=set)      # waits that may be, by the source
    rewriting: dict = field(default_factory=dict)   # by place: what its tasks write again and again that others read
    usage: Optional[dict] = None
    children: int = 0                   # processor time of the programs that it started
    stolen: float = 0.0                 # of the machine's processors' time, by its host
    others: Optional[int] = None        # time that other programs, and the host, used its processors
    coverage: Optional[float] = None
    runs: int = 1
    true_one: Optional[List[int]] = None        # elapsed times of unrecorded runs on one thread
    true_many: Optional[List[int]] = None       # and on as many as the recorded run had
    cost_on_one: Optional[Dict[str, int]] = None    # by place, of a recording on one thread

    @property
    def target(self):
        """The threads that the run could have had."""
        wanted = self.asked or self.processors or self.threads
        return max(self.threads, min(wanted, self.processors or wanted))

    @property
    def usable(self):
        """Of these, as many as run at once."""
        return max(1, min(self.target, self.processors or self.target))

    @property
    def is_on_gcc(self):
        """Whether gcc's runtime ran it."""
        return self.runtime.startswith(RUNTIMES["gnu"])

    @property
    def has_tasks(self):
        """Whether the program makes any: a region's threads have code of their own that is a task in the text."""
        return any(place.tasks for place in self.places.values() if place.kind == TASK)

    @property
    def whole_time(self):
        return self.target * self.elapsed

    @property
    def own_time(self):
        """The threads' time that other programs left."""
        return self.whole_time - self.taken

    @property
    def seen(self):
        """The elapsed time that a person sees: of unrecorded runs, where there are any."""
        return int(statistics.median(self.true_many)) if self.true_many else self.elapsed

    @property
    def now(self):
        """What the recorded run takes of it without what other programs took."""
        return self.seen if self.true_many else self.elapsed - self.taken // self.target

    @property
    def on_one(self):
        return int(statistics.median(self.true_one)) if self.true_one else None

    def key(self, name):
        """Of a place of the text: of those that it names alike that for which threads waited most."""
        same = [key for key in self.places if in_text(key) == name]
        return max(same, key=lambda key: self.starved_by.get(key, 0), default=name)

    def least_time(self, code):
        """That of this code on as many threads as run at once, and with that of the programs that it started on all
        processors."""
        return max(code / self.usable, (code + self.children) / (self.processors or self.usable))

    def share(self, time):
        return time / self.whole_time if self.whole_time else 0.0

    def own_share(self, time):
        """Of the time that other programs left."""
        return time / self.own_time if self.own_time else 0.0

    def lost_share(self, loss):
        """What the program lost itself is reported of the time that others left it."""
        return self.share(loss.time) if loss.kind == "machine" else self.own_share(loss.time)


def function_in(words):
    """The name in `in sort, inlined into main at sort.c:9`, as a person knows it."""
    return plain(re.sub(r"^in ", "", words).partition(", inlined into")[0])


def of_those_at_once(found, threads):
    """The account of as many threads as the program had at a time: nested regions may each make new ones."""
    if threads == found.threads:
        return found
    rows = found.rows.on_few_threads
    threads = max(threads, 1 + max(rows.thread))
    if threads == found.threads:
        return found
    found = replace(found, threads=threads, rows=rows)
    found.delayed, found.starved = (sum(parts.values()) for parts in found.idle)
    found.outside = found.whole - found.busy - found.delayed - found.starved
    return found


def starting_shares(found):
    """Of the delays of threads' own code, and of code after regions, by place: as much as a runtime takes."""
    whole, starting = Counter(), Counter()
    around = {name for name in set(found.places) if name.startswith(AROUND_REGIONS)}
    rows = zip(found.rows.ready, found.rows.begin, found.places)
    for ready, begin, name in compress(rows, map(around.__contains__, found.places)):
        whole[name] += begin - ready
        starting[name] += min(begin - ready, A_START)
    return {name: starting[name] / time for name, time in whole.items() if time}


def starting_of_kinds(delays, names):
    """The same of kinds with these names, as the converter adds them up."""
    whole, starting = Counter(), Counter()
    for kind, delayed, part in delays:
        whole[names[kind]] += delayed
        starting[names[kind]] += part
    return {name: starting[name] / time for name, time in whole.items() if time}


def has_sums(facts, recording, code):
    """Whether the table of segments tells what rows of the times would tell: where the run's threads are numbered as it
    had them at once."""
    return code.delays is not None and head_in(recording.times)[0] == facts.threads


def breakdown_of_sums(facts, recording, head, work, program):
    """Without rows, of which there may be millions."""
    code, times = program.code, recording.times
    found = breakdown_by_kind(head, work, recording.text, code.of, program.kinds, times)
    facts.starting_by = starting_of_kinds(code.delays, program.kinds)
    facts.barriers = needless_barriers(program, facts.regions, lambda: times_in(times)[1][1])
    return found


def breakdown_of_rows(facts, timed, head, work, program):
    found = of_those_at_once(breakdown_of(head, work, timed, program.names), facts.threads)
    facts.starting_by = starting_shares(found)
    facts.barriers = needless_barriers(program, facts.regions, lambda: found.rows.thread)
    return found


def set_breakdown(facts, recording, head, work, program):
    """By the times of the run."""
    if not recording.times:
        raise NoBreakdown("it has no times")
    if has_sums(facts, recording, program.code):
        found = breakdown_of_sums(facts, recording, head, work, program)
    else:
        found = breakdown_of_rows(facts, document(recording), head, work, program)
    facts.threads = found.threads
    for name, part in found.parts.items():
        setattr(facts, name.replace(" ", "_"), part)
    facts.delayed_by, facts.starved_by = found.idle


@read_once
def greedy_end(path, threads):
    """Where the greedy run of a text ends; its bound where there is too little memory for that."""
    row = numbers_of(TextFile(path), [threads]).on[threads]
    return row.bound if row.end is None else row.end


def set_by_greedy(facts, head, end):
    """Without the times of the run: what the greedy run of the text leaves idle, and what is longer than it. While a
    thread was preempted all others may have waited."""
    unit, whole, waited = head.nanoseconds or 1, facts.threads * facts.elapsed, 0
    facts.code = min(facts.work, whole)
    if head.clock == "wall":
        facts.preempted = min(facts.code, head.clocks_differ.get("by", 0) * unit)
        facts.code -= facts.preempted
        facts.starved = max(0, min(whole, facts.threads * end * unit) - facts.code - facts.preempted)
    else:
        facts.preempted = min(head.taken_off.get("by", 0) * unit, whole - facts.code)
        idle = whole - facts.code - facts.preempted
        facts.starved = max(0, min(idle, facts.threads * end * unit - facts.code))
        waited = min(idle - facts.starved, (facts.threads - 1) * facts.preempted)
    facts.delayed = whole - facts.code - facts.preempted - facts.starved - waited
    if waited:
        heaviest = max(facts.places, key=lambda name: facts.places[name].cost)
        facts.starved_by, facts.starved_off = {"": facts.starved, heaviest: waited}, {heaviest: waited}
        facts.starved += waited
    facts.asleep = min(facts.code, sum(facts.asleep_by.values()))
    facts.code -= facts.asleep


def off_by_segment(path, head):
    """Time asleep and preempted, of a file with a line for each segment, or else of the text's head."""
    if not path:
        return {segment: (0, time * (head.nanoseconds or 1)) for segment, time in head.preempted.items()}
    with reading(path), open(path, encoding="utf-8") as file:
        return {segment: (slept, preempted) for segment, slept, preempted in (map(int, line.split()) for line in file)}


def set_off(facts, off, program):
    """By place."""
    for segment, (slept, preempted) in off.items():
        name = program.kinds[program.code.of[segment]]
        facts.asleep_by[name] = facts.asleep_by.get(name, 0) + slept
        facts.preempted_by[name] = facts.preempted_by.get(name, 0) + preempted


def set_ranks(facts):
    """Calls that wait for other ranks count as sleep, for as long as they were sampled."""
    for name, ran in facts.calls.ran.items():
        waits = {calls: ran.pop(calls) for calls in list(ran) if is_of_ranks(calls)}
        if waits:
            facts.calls.slept.setdefault(name, Counter()).update(waits)
            facts.asleep_by[name] = facts.asleep_by.get(name, 0) + 1000 * sum(waits.values())


def set_starting(facts):
    """The start of a program is no code of its own that samples saw, nor is its sleep meanwhile that of code."""
    ran, slept = facts.calls.ran.get(BEGINNING, {}), facts.calls.slept.get(BEGINNING, {})
    for calls in filter(is_start, list(ran)):
        del ran[calls]
    asleep = min(1000 * sum(slept.pop(calls) for calls in filter(is_loading, list(slept))),
                 facts.asleep_by.get(BEGINNING, 0))
    if asleep:
        facts.asleep_by[BEGINNING] -= asleep
        facts.asleep_by[AT_START] = asleep


def set_waiting(facts):
    """Threads that wait for locks of OpenMP are sampled as code is: what samples in the runtime are more than code is
    none of it."""
    for name, ran in facts.calls.ran.items():
        code = facts.places[name].cost - facts.asleep_by.get(name, 0) if name in facts.places else 0
        waited = min(facts.at_locks, 1000 * sum(ran.values()) - code) // 1000
        waits = {calls: time for calls, time in ran.items() if calls[-1] == RUNTIME}
        if waited > 0 and waits:
            for calls, time in divided(max(0, sum(waits.values()) - waited), waits).items():
                ran[calls] = time


def set_allocating(facts):
    """The functions of the lines that allocate memory."""
    for line, _, function in (at.partition(" ") for found in facts.calls.allocated.values() for at in found):
        if line and function:
            facts.functions.setdefault(line, plain(function))


def runtime_name(runtime):
    """Such as `LLVM 19`."""
    return " ".join(filter(None, [RUNTIMES.get(runtime.get("name"), runtime.get("name")), runtime.get("version")]))


def stolen_share(host, elapsed):
    """Of the time of all processors that the machine has."""
    whole = (host.get("host_processors") or 0) * elapsed
    return (host.get("stolen_ns") or 0) / whole if whole else 0.0


def used_by_others(host, usage):
    """Of the time in which the machine's processors were not idle; None where that is not known."""
    busy = host.get("busy_ns")
    own = host.get("command_ns") or (usage.get("user_ns") or 0) + (usage.get("system_ns") or 0)
    return None if busy is None else max(0, busy - own) + (host.get("stolen_ns") or 0)


def set_meta(facts, meta):
    threads, usage, host = meta.get("threads") or {}, meta.get("usage"), meta.get("host") or {}
    facts.asked, facts.processors = threads.get("asked"), meta.get("processors")
    facts.of_machine = host.get("host_processors")
    facts.runtime = runtime_name(meta.get("runtime") or {})
    facts.is_of_gcc = facts.is_of_gcc or facts.is_on_gcc
    facts.is_imported = bool(meta.get("imported"))
    facts.runs = len(meta.get("runs") or [1])
    facts.usage, facts.children = usage or None, meta.get("children_ns") or 0
    facts.stolen, facts.others = stolen_share(host, meta.get("elapsed_ns") or 0), used_by_others(host, usage or {})
    facts.true_one, facts.true_many = meta.get("true_one"), meta.get("true_many")
    facts.cost_on_one = meta.get("cost_on_one")


def inner_regions(program):
    """By place, those inside others that have several threads."""
    found = {}
    for region in program.regions if program else ():
        if region.inside and region.threads > 1:
            found.setdefault(region.place, []).append(region)
    return [Region(place, max(one.threads for one in some), union((one.begin, one.end) for one in some),
                   times=len(some), together=most_together(some, lambda region: 1)) for place, some in found.items()]


def most_together(regions, weight):
    """The most that those weigh which last at the same time."""
    moments = [(region.begin, weight(region)) for region in regions] + \
        [(region.end, -weight(region)) for region in regions]
    return max(accumulate(added for _, added in sorted(moments)), default=0)


def regions_inside(program, is_meant):
    """Those inside others that are meant, as lists with the outermost one around them first."""
    outer = [region for region in program.regions if not region.inside and region.number] if program else []
    begins, within = [region.begin for region in outer], {}
    for region in program.regions if outer else ():
        if region.inside and is_meant(region):
            around = max(0, bisect_right(begins, region.begin) - 1)
            within.setdefault(around, [outer[around]]).append(region)
    return within.values()


def denied_time(program, usable, a_team=0):
    """By place of regions inside others that asked for several threads and got one: the time of threads that no order
    of these wins back, since the longest one lasts longer than all of them would divided, or the team is small. With
    more threads each region takes `a_team` longer to start."""
    found = Counter()
    for around, *inner in regions_inside(program, lambda region: region.threads == 1 < region.asked):
        longest = max(inner, key=lambda region: region.elapsed)
        missing = (usable - around.threads) * union((region.begin, region.end) for region in inner)
        uneven = usable * longest.elapsed - sum(region.elapsed for region in inner)
        found[longest.place] += max(0, max(missing, uneven) - len(inner) * a_team * usable // around.threads)
    return dict(+found)


def added_threads(program):
    """By place of regions, the time of the threads that those inside them had besides."""
    found = Counter()
    for around, *inner in regions_inside(program, lambda region: region.threads > 1):
        found[around.place] += sum((region.threads - 1) * region.elapsed for region in inner)
    return found


def regions_at(place, added):
    """As one; those inside others are left out, since their threads are not of the team."""
    outer, teams = [region for region in place.regions if not region.inside], Counter()
    for region in outer:
        teams[region.threads] += region.elapsed
    asked = max(region.asked for region in outer if region.threads == min(teams))
    return Region(place.name, max(teams), place.outermost, asked or None, len(outer), teams=dict(teams), added=added,
                  code=sum(region.code for region in outer))


def regions_of(program):
    """By place."""
    added = added_threads(program)
    return [regions_at(place, added[place.name]) for place in program.places if not place.is_inside] if program else []


def regions_in_sums(places):
    """The same of sums by place, where no region is inside another one."""
    return [Region(place or UNKNOWN, max(threads for threads, *_ in teams), elapsed, min(teams)[2] or None, times,
                   teams={threads: time for threads, time, _ in teams}, code=code)
            for place, times, elapsed, code, teams in places]


def set_regions(facts, path, code):
    if code.regions:
        facts.tasks_in_regions, facts.regions = code.regions[0], regions_in_sums(code.regions[1])
        return
    regions = program_of(path)
    facts.regions, facts.inner = regions_of(regions), inner_regions(regions)
    facts.denied = denied_time(regions, facts.usable, A_TEAM if facts.is_on_gcc else 0)
    facts.tasks_in_regions = not regions or any(region.tasks for region in regions.regions)


def of_text(head, program, numbers):
    """What the text alone tells: its head, its places, its work and span."""
    unit = head.nanoseconds or 1
    facts = Facts(program=head.program, whole=bool(head.whole), threads=head.threads or 1,
                  elapsed=(head.elapsed or 0) * unit, work=numbers["work"] * unit, span=numbers["span"] * unit,
                  tasks=program.code.tasks - head.pieces - head.parts, places=program.places,
                  functions={at: function_in(words) for at, words in head.functions.items()})
    facts.coverage = head.covered / head.thread_time if head.covered and head.thread_time else None
    facts.chunks, facts.few_turns, facts.sources = head.chunks, head.few_turns, head.sources
    facts.is_of_gcc = any(remark.name == OF_GCC for remark in head.remarks)
    if any(remark.name == EXCLUDING for remark in head.remarks):
        for place in facts.places.values():
            place.exclusive = place.inoutset
    return facts


def facts_of(recording, end_of=greedy_end):
    """Of a recording's folder, or of a plain text with what lies beside it. `end_of` is asked only without times."""
    path, meta = recording.text, recording.meta
    measured = client.meanwhile(client.measured, path)
    code, head = code_in(path), head_of(path)
    off = {segment: times for segment, times in off_by_segment(recording.file("off"), head).items()
           if 0 <= segment < len(code)}
    program, numbers = read_places(code, head.nanoseconds or 1), measured()
    facts = of_text(head, program, numbers)
    set_meta(facts, meta)
    facts.locks = locks_of(recording.file("locks"), head)
    set_regions(facts, path, code)
    set_off(facts, off, program)
    facts.calls = calls_of(recording.file("calls"), code.of, program.kinds)
    set_ranks(facts)
    set_starting(facts)
    set_allocating(facts)
    facts.interpreter = interpreter_of(facts)
    try:
        set_breakdown(facts, recording, head, numbers["work"], program)
        if is_disturbed(facts) and head.clock == OWN_CLOCK:
            set_disturbed(facts, starved_alone(path, program.names, facts.threads))
    except NoBreakdown:
        set_by_greedy(facts, head, end_of(path, facts.threads))
    set_waiting(facts)
    set_library_locks(facts)
    if is_crowded(facts):
        facts.scheduled = end_of(path, facts.usable) * (head.nanoseconds or 1)
    return facts
