"""What threads had of the code of their regions between two barriers, a phase: how unevenly it was divided among them,
and how much of it one thread ran alone."""
from bisect import bisect_right
from collections import Counter, defaultdict
from itertools import chain, compress, groupby
from operator import itemgetter
from typing import NamedTuple

from spanprof.program_text import BARRIER, OF_A_THREAD, is_share, named

OWN = named("task", OF_A_THREAD)    # the name of a thread's own code, in a text the same in all regions
AFTER_REGION = "after the " + BARRIER
ALONE = 0.05        # of the largest piece of a phase: where the others together have less, one thread runs it
ABOUT = 0.25        # of a turn, by which those of one length differ


class Phases(NamedTuple):
    """Of the code at a place, whose segments have this kind, and others with the same name. Costs are in the text's
    unit."""
    kind: int
    longest: int = 0    # of threads' own code: the largest pieces, one of each phase
    alone: int = 0      # of these, in phases that one thread runs
    uneven: int = 0     # what all would cost more that had as much as the largest
    by_a_turn: int = 0  # of this, where they had a turn or none, all of one length, and some of them one more
    phases: int = 0     # of threads' own code: how many begin with it
    further: int = 0    # of these, right behind a barrier of the same region


def names_with_regions(code):
    """Of the kinds of segments. Threads' own code has its region in its name."""
    return ["%s at %s" % (OWN, kind.region) if name == OWN and kind.region else name
            for name, kind in zip(code.names, code.kinds)]


def firsts(names):
    """Of each name where it stands first."""
    found = {}
    return [found.setdefault(name, number) for number, name in enumerate(names)]


def set_longest(code, numbers, found):
    """Of threads' own code the largest pieces of the phases, which run at once."""
    width, largest, whole = len(numbers), {}, defaultdict(int)
    for segment, group in zip(code.own, code.groups):
        phase, cost = group * width + numbers[code.of[segment]], code.cost[segment]
        whole[phase] += cost
        if cost >= largest.get(phase, 0):
            largest[phase] = cost
    for phase, cost in largest.items():
        found["longest"][phase % width] += cost
        found["alone"][phase % width] += cost * (whole[phase] - cost < ALONE * cost)


def are_turns(less, length):
    """Whether each is about none of this length or one, and some are one."""
    about = ABOUT * length
    if 2 * max(less) <= length:
        return False
    for one in less:    # there are many: a generator of each takes three times as long
        if one >= about and abs(length - one) >= about:
            return False
    return True


def is_by_a_turn(costs, threads):
    """Whether it is as if they had a turn of a loop, or none, and some of them one more."""
    most, least = max(costs), min(costs) if len(costs) >= threads else 0
    if 4 * (most - least) <= most:
        return False
    less = [most - one for one in costs] + [most] * (len(costs) < threads)
    return are_turns(less, most) or are_turns(less, most / 2)


def shares_of(code, names, numbers):
    """What each part had of divided code, and of threads' own, by the number of its group and of the place."""
    width, had, shares = len(numbers), defaultdict(int), defaultdict(list)
    is_shared = [is_share(kind.task_place) or name.startswith(OWN) for kind, name in zip(code.kinds, names)]
    for segment in compress(range(len(code)), map(is_shared.__getitem__, code.of)):
        part = bisect_right(code.own, segment) - 1
        if part >= 0:
            had[part, numbers[code.of[segment]]] += code.cost[segment]
    for (part, number), cost in had.items():
        shares[code.groups[part] * width + number].append(cost)
    return shares


def set_uneven(code, names, numbers, found):
    """Of such code, phase by phase, what the parts had less than that with the most."""
    width, parts = len(numbers), Counter(code.groups)
    for share, costs in shares_of(code, names, numbers).items():
        (group, number), most = divmod(share, width), max(costs)
        less = parts[group] * most - sum(costs)
        if less:
            found["uneven"][number] += less
            found["by_a_turn"][number] += less * is_by_a_turn(costs, parts[group])


def phases_in(code):
    """Of each phase the kind of its first segment, whether it is right behind a barrier of the same region, where no
    code stands, and its parts: their first segments, and those behind them."""
    before, is_barrier = "", [name.startswith(AFTER_REGION) for name in code.names]
    parts = zip(code.own, chain(code.own[1:], (len(code),)), code.groups)
    for _, some in groupby(parts, itemgetter(2)):
        some = list(some)
        first = some[0][0]
        region = code.kinds[code.of[first]].region
        is_further = region == before and is_barrier[code.of[first - 1]] and not code.cost[first - 1]
        yield code.of[first], is_further, [part[:2] for part in some]
        before = region


def added_up(code):
    """By place. Of a recording's text its converter has done so."""
    if code.phases is not None:
        return [Phases(*row) for row in code.phases]
    names, found = names_with_regions(code), defaultdict(Counter)
    numbers = firsts(names)
    set_longest(code, numbers, found)
    set_uneven(code, names, numbers, found)
    for kind, is_further, _ in phases_in(code):
        found["phases"][kind] += 1
        found["further"][kind] += is_further
    kinds = sorted(set().union(*found.values()))
    return [Phases(kind, **{name: counts[kind] for name, counts in found.items()}) for kind in kinds]
