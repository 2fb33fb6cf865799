"""The places of a program's code: of each what it cost, what kind of code it is, and which lines it has; and barriers
between loops of a region at which threads wait for each other, though each has as much to do in all.
"""
import itertools
from array import array
from collections import Counter, defaultdict
from dataclasses import dataclass, field
from functools import cached_property
from operator import itemgetter
from typing import List, NamedTuple, Tuple

from spanprof.phases import AFTER_REGION, ALONE, OWN, added_up, names_with_regions, phases_in
from spanprof.program_text import CREATING, DEPEND, OF_A_THREAD, UNDEFERRED, is_share
from spanprof.segment_table import Code
from spanprof.source_lines import line_of

SERIAL, OF_THREADS, TASK, SHARE = "serial", "of threads", "task", "share"
ALLOCATION = "allocation at "       # before a line that allocates memory
A_START = 50000     # nanoseconds: a thread starts a region's code in less, or goes on after it
LEAST_HOLDERS = 3   # tasks that hold an item to write
AROUND_REGIONS = (OWN, AFTER_REGION)
SELDOM = 0.1    # of a region's phases
EVENED = 0.7    # of the waits in a region, from which on its barriers are their cause, and not how loops are divided


@dataclass
class Place:
    """`name` is that of reports and of changes."""
    name: str
    kind: str = TASK
    at: str = ""            # the construct that it follows, such as `sort.c:9`
    ends: Counter = field(default_factory=Counter)      # constructs that end it, by cost
    cost: int = 0
    pieces: int = 0
    largest: int = 0        # the cost of one piece
    longest: int = 0        # of threads' own code: the cost of the largest pieces, one of each phase of the region
    alone: int = 0          # of these, in phases that one thread runs
    uneven: int = 0         # of divided code, or threads' own: what all would cost more that had as much as the largest
    by_a_turn: int = 0      # of this, where they had a turn or none, all of one length, and some of them one more
    tasks: int = 0          # that begin with it
    undeferred: int = 0     # of these
    inoutset: int = 0       # of these, with such an item
    exclusive: int = 0      # of these, that exclude each other
    items: Counter = field(default_factory=Counter)     # depend items of these tasks, by type and name
    again: int = 0          # tasks that write the same items as the one made before them
    positions: dict = field(default_factory=dict)       # of an item: its place among those of its type in a task
    moving: set = field(default_factory=set)    # items to write that tasks have at several positions: of neighbours
    moving_at: set = field(default_factory=set)     # these positions

    def add(self, pieces, cost, most, at, end):
        """More pieces, which begin and end at these constructs, with the cost of all and of the largest one."""
        if most >= self.largest:
            self.at, self.largest = at, most
        self.pieces, self.cost = self.pieces + pieces, self.cost + cost
        self.ends[end] += cost

    def add_tasks(self, number, clauses, again):
        """As many tasks that have these clauses, so many of them right behind another one with them. There may be a
        million such."""
        found = DEPEND.findall(clauses)
        kinds = {kind for kind, _ in found}
        self.undeferred += number * bool(UNDEFERRED.search(clauses))
        self.inoutset += number * ("inoutset" in kinds)
        self.again += again * (not kinds <= {"in"})
        items, positions, met = self.items, self.positions, {}
        for kind, names in found:
            at = met.get(kind, 0)
            for item in zip(itertools.repeat(kind), names.split(",")):
                items[item] = items.get(item, 0) + number
                first = positions.setdefault(item, at)
                if first != at and kind == "inout":
                    self.moving.add(item)
                    self.moving_at.update((first, at))
                at += 1
            met[kind] = at

    @property
    def last_end(self):
        """The construct that ends most of its code; empty where none does."""
        return max(self.ends, key=lambda name: self.ends[name], default="")

    @property
    def read_at(self):
        """Positions of what its tasks hold to write, and may only read."""
        return self.moving_at or self.shared_at

    @cached_property
    def most_written(self):
        """The item that most tasks hold to write, by type and name; None without any."""
        return max((pair[::-1] for pair in self.items.items() if pair[0][0] != "in"), default=(0, None))[1]

    @cached_property
    def shared_at(self):
        """Of these, where several tasks have the same name, while they have more names at another position; none where
        items are of neighbours."""
        if self.moving:
            return set()
        names, tasks = Counter(), Counter()
        for item, count in self.items.items():
            if item[0] == "inout":
                names[self.positions.get(item, 0)] += 1
                tasks[self.positions.get(item, 0)] += count
        most = max(names.values(), default=0)
        return {at for at, number in names.items() if 1 < number < most and LEAST_HOLDERS * number <= tasks[at]}

    @property
    def has_several(self):
        """Whether several threads run it at once; of tasks whether they may."""
        if self.kind == OF_THREADS:
            return not self.longest or 2 * self.alone < self.longest
        return self.kind != SERIAL and self.pieces > 1

    @property
    def follows_creation(self):
        """Whether it is what a task does after it has created another one."""
        return self.kind == TASK and self.name.startswith("after " + CREATING)

    @property
    def average(self):
        return self.cost / self.pieces if self.pieces else 0

    @property
    def is_creating(self):
        """Whether the code makes tasks one after the other."""
        return self.name.startswith(("after creating", "starting"))


def kind_of(kind):
    """Of the code of segments of a kind."""
    if is_share(kind.task_place):
        return SHARE
    if kind.task_place.startswith(OF_A_THREAD):
        return OF_THREADS
    return SERIAL if kind.is_root else TASK


def in_text(name):
    """As the text has it: there the code of all regions' threads has one name."""
    return OWN if name.startswith(OWN) else name


@dataclass
class Program:
    """The segments of a text, their costs in nanoseconds, and its places by their names."""
    code: Code
    costs: array
    kinds: List[str]                # the names of the places of the segments' kinds
    places: dict

    @cached_property
    def names(self):
        """Of each segment's place."""
        return [self.kinds[number] for number in self.code.of]


def costs_of(code, unit):
    """Of its segments, in nanoseconds."""
    return code.cost if unit == 1 else array("Q", map(unit.__mul__, code.cost))


def set_phases(program, unit):
    """Of code that is divided among threads, by place, what its phases tell."""
    for row in added_up(program.code):
        place = program.places[program.kinds[row.kind]]
        place.longest += unit * row.longest
        place.alone += unit * row.alone
        place.uneven += unit * row.uneven
        place.by_a_turn += unit * row.by_a_turn


def read_places(code, unit=1):
    """A program whose costs are in so many nanoseconds."""
    names = names_with_regions(code)
    program = Program(code, costs_of(code, unit), names, {})
    for (number, following), (pieces, cost, most) in code.sums.items():
        kind = code.kinds[number]
        place = program.places.setdefault(names[number], Place(names[number], kind_of(kind)))
        place.add(pieces, unit * cost, unit * most, kind.begin, code.kinds[following].end)
        place.tasks += pieces * (not kind.is_root and not kind.after)
    for number, clauses, count, again in code.clauses:
        if number is not None:      # a thread's own code has none
            program.places[names[number]].add_tasks(count, clauses, again)
    set_phases(program, unit)
    return program


def lines_between(place) -> Tuple[str, int, int]:
    """The file, the first line and the last one that are known; 0 for what is not."""
    first = line_of(place.at) if place.at else None
    last = line_of(place.last_end) if place.last_end else None
    if first and last and (last.file != first.file or last.number < first.number):
        last = None
    one = first or last
    return (one.file, first.number if first else 0, last.number if last else 0) if one else ("", 0, 0)


class Phase(NamedTuple):
    """The code of a region's threads between two barriers."""
    name: str       # of the place with most of it
    costs: dict     # by thread

    @property
    def is_alone(self):
        """Whether one thread runs it, as a single: what follows has to wait for it."""
        most = max(self.costs.values())
        return sum(self.costs.values()) - most < ALONE * most


def waits_of(costs):
    """Of threads that had so much, until the last one has ended."""
    return len(costs) * max(costs, default=0) - sum(costs)


def kinds_of(program):
    """Of the segments of a kind the place, empty where they say nothing, or None where tasks have them."""
    shown = (SHARE, OF_THREADS)
    return [name if kind_of(kind) in shown else "" if kind.is_root else None
            for name, kind in zip(program.kinds, program.code.kinds)]


def part_of(kinds, costs):
    """The cost by place of what a thread had in a phase; None where tasks have some of it."""
    found = {}
    for name, cost in zip(kinds, costs):
        if name:
            found[name] = found.get(name, 0) + cost
        elif cost and name is None:
            return None
    return found


def regions_with_several(program):
    """Those whose threads go on behind a barrier of theirs more than seldom."""
    phases, further = Counter(), Counter()
    for row in added_up(program.code):
        region = program.code.kinds[row.kind].region
        phases[region] += row.phases
        further[region] += row.further
    return {region for region, count in phases.items() if count and further[region] >= SELDOM * count}


def times_of_regions(program, several, threads):
    """By region, of each time that it began its phases, and of these the parts by thread. Regions whose threads seldom
    go on behind a barrier are left out: there are many."""
    found = defaultdict(list)
    code, costs, name_of = program.code, program.costs, kinds_of(program).__getitem__
    for kind, goes_on, parts in phases_in(code):
        region = code.kinds[kind].region
        if region in several:
            found[region] += [] if goes_on else [[]]
            found[region][-1].append({threads[first]: part_of(map(name_of, code.of[first:end]), costs[first:end])
                                      for first, end in parts})
    return found


def phase_of(parts, threads):
    """None of one that is not of all threads, or has tasks."""
    if len(parts) < threads or None in parts.values():
        return None
    places = {}
    for name, cost in itertools.chain.from_iterable(part.items() for part in parts.values()):
        if cost:
            places[name] = places.get(name, 0) + cost
    return Phase(max(places, key=places.get, default=""), {name: sum(part.values()) for name, part in parts.items()})


def chains_of(phases):
    """Those that follow each other, and that several threads run."""
    some = []
    for phase in [*phases, None]:
        if phase and not phase.is_alone:
            some.append(phase)
        elif some:
            yield some
            some = []


def evened(phases):
    """What threads would wait less that went through these without barriers."""
    whole = Counter()
    for phase in phases:     # a sum of counters leaves out threads without cost
        whole.update(phase.costs)
    return sum(waits_of(phase.costs.values()) for phase in phases) - waits_of(whole.values())


def barrier_of(times):
    """Of the phases of a region's times: the places, that with most waits at a barrier, and the share of all waits that
    goes without barriers."""
    waits, behind, less = Counter(), Counter(), 0
    for some in (some for phases in times for some in chains_of(phases)):
        less += evened(some)
        for phase in some[:-1]:
            behind[phase.name] += waits_of(phase.costs.values())
    for phase in (phase for phases in times for phase in filter(None, phases)):
        waits[phase.name] += waits_of(phase.costs.values())
    return waits, max(behind, key=behind.get, default=""), less / max(1, sum(waits.values()))


def barriers_by_rows(program, several, known, threads):
    """Of each region what barrier_of answers, with the threads of each segment."""
    for region, times in times_of_regions(program, several, threads).items():
        team = known.get((region, len(times)), 0)
        if team:
            yield barrier_of([[phase_of(parts, team) for parts in one] for one in times])


def barriers_by_kind(program, several, known):
    """The same, as the converter adds them up."""
    names = {**dict(enumerate(program.kinds)), None: ""}
    for kind, times, less, waits, behind in program.code.barriers:
        region = program.code.kinds[kind].region
        if region in several and known.get((region, times)):
            waits = {names[place]: time for place, time in waits}
            at = max(behind, key=itemgetter(1), default=(None, 0))
            yield waits, names[at[0]], less / max(1, sum(waits.values()))


def needless_barriers(program, regions, threads_of):
    """By place of code in regions whose barriers are the cause of its waits: the place before such a barrier, and the
    share of the waits. `threads_of` answers that of each segment."""
    out, known = {}, {(one.place, one.times): one.threads for one in regions}
    several = regions_with_several(program)
    found = () if not several else barriers_by_kind(program, several, known) if program.code.barriers is not None else \
        barriers_by_rows(program, several, known, threads_of())
    for waits, behind, share in found:
        if share >= EVENED:
            out.update(dict.fromkeys(waits, (behind, share)))
    return out
