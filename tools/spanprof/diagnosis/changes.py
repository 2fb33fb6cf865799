"""The changes that are tried on a recorded text, and where its greedy run ends with them.

Among them several buffers, used in turns, for tasks that write what others read, again and again, so that they wait
for these.
"""
import re
import time
from dataclasses import dataclass
from typing import List, NamedTuple, Tuple

from spanprof import client
from spanprof.answers import greedy_end
from spanprof.command import Fault, Progress, each
from spanprof.diagnosis.calls import innermost
from spanprof.diagnosis.losses import holds_neighbours, kind_of_starved
from spanprof.diagnosis.places import LEAST_HOLDERS, OF_THREADS, SERIAL, SHARE, in_text
from spanprof.program_text import BARRIER
from spanprof.whatif.requests import Request, applied, best_first, changes, costs_for, survey

LEAST_TIMES = 2     # that a location is written by tasks of a place
MOST_NAMES = 8      # that are renamed one by one
MOST = 4            # places of a kind that are tried
MOST_TOGETHER = 8   # of one function
LARGE = 40000       # statements, from which on changes are tried one by one, while there is time


class Rewriting(NamedTuple):
    """What has to be renamed at a place, the names that its tasks only write, and those that others read, as the source
    spells them."""
    requests: Tuple[Request, ...]
    names: List[str]
    items: List[str]


def read_by_others(facts, place):
    """The names that its tasks write several times, and tasks of other places read."""
    read = {name for other in facts.places.values() if other.at != place.at
            for kind, name in other.items if kind == "in"}
    return {name for (kind, name), times in place.items.items()
            if kind == "inout" and times >= LEAST_TIMES and name in read}


def requests_for(place, only_written, is_all):
    """For all that its tasks write, or for each name of it where they may read the rest."""
    if is_all:
        return (Request("rename", place.name),)
    few = only_written if len(only_written) <= MOST_NAMES else []
    return tuple(Request("rename", "%s=%s" % (place.name, name)) for name in few)


def as_spelt(names, place):
    """Of each name that its tasks write the type and the item, as the source spells them."""
    at = {item[1]: place.positions.get(item) for item in place.items if item[0] == "inout"}
    spelt = {position: names.item(place, ("inout", name)).split(": ", 1)
             for position, name in {position: name for name, position in at.items()}.items()}
    return {name: spelt[position] for name, position in at.items()}


def rewriting_at(facts, names, place):
    read = read_by_others(facts, place)
    spelt = as_spelt(names, place) if read else {}
    only_written = [name for name, (kind, _) in spelt.items() if kind == "out"]
    items = dict.fromkeys(spelt[name][1] for name in only_written if name in read)
    requests = requests_for(place, only_written, len(only_written) == len(spelt)) if items else ()
    return Rewriting(requests, only_written, list(items))


def rewriting(facts, names):
    """By place, where the source says of some of it that tasks only write it."""
    found = {place.name: rewriting_at(facts, names, place) for place in facts.places.values()}
    return {name: one for name, one in found.items() if one.requests}


def is_only_written(facts, place, name):
    """Whether the source says so of what a place's tasks write."""
    return place.name in facts.rewriting and name in facts.rewriting[place.name].names


def related(facts):
    """Those of such places together of which some tasks hold what both write."""
    groups = [[name] for name in facts.rewriting]
    for place in facts.places.values():
        held = {name for _, name in place.items}
        met = [group for group in groups if any(not held.isdisjoint(facts.rewriting[name].names) for name in group)]
        groups = [group for group in groups if group not in met] + [sum(met, [])] * bool(met)
    return [sorted(group, key=list(facts.rewriting).index) for group in groups]


def renamings(facts):
    """The requests for each such place, and before them those for all that are related."""
    groups = [group for group in related(facts) if len(group) > 1]
    return [sum((facts.rewriting[name].requests for name in group), ()) for group in groups] + \
        [one.requests for one in facts.rewriting.values()]


@dataclass(frozen=True)
class Change:
    """One or several requests that are made together; `kind` is that of the first."""
    requests: Tuple[Request, ...]

    @property
    def kind(self):
        return self.requests[0].option

    @property
    def places(self):
        """What it changes: places, waits, or names."""
        words = [one.word for one in self.requests]
        if self.kind in ("split", "join"):
            return [word.rpartition("=")[0] for word in words]
        return [re.sub(r"=\w+$", "", word) for word in words] if self.kind == "rename" else words

    @property
    def place(self):
        return self.places[0]


@dataclass(frozen=True)
class Tried:
    change: Change
    end: int        # of the greedy run, in nanoseconds


def single(option, word):
    return Change((Request(option, word),))


def by_function(facts, names):
    """Serial code in which the same function ran is changed together."""
    found = {}
    for name in names:
        ran = innermost(facts.calls.ran.get(name, {})) if facts.places[name].kind == SERIAL else None
        found.setdefault(ran.function if ran else name, []).append(name)
    return found.values()


def splits(facts):
    """Of the code while which threads had nothing to run, and of the code with the most cost; not of that which regions
    inside others would divide."""
    idle = list(by_function(facts, [name for name in facts.starved_by if name in facts.places]))[:MOST]
    heavy = sorted(facts.places, key=lambda name: -facts.places[name].cost)[:2]
    for names in idle + [[name] for name in heavy if not any(name in names for names in idle)]:
        tried = [name for name in names[:MOST_TOGETHER] if kind_of_starved(facts, name) != "loop_schedule"
                 and not (facts.denied and facts.places[name].kind in (SHARE, OF_THREADS))]
        if tried:
            yield Change(tuple(Request("split", "%s=%d" % (name, max(2, facts.usable)))
                               for name in dict.fromkeys(map(in_text, tried))))


def readers(facts):
    """Names that many tasks of a place hold to write, and may only read, and places of tasks that hold so what those
    before them have."""
    found = {}
    for place in facts.places.values():
        shared = place.most_written
        if shared and place.items[shared] >= LEAST_HOLDERS and not is_only_written(facts, place, shared[1]):
            found[shared[1]] = max(found.get(shared[1], 0), place.items[shared])
    for name in sorted(found, key=lambda name: -found[name])[:MOST]:
        yield single("in-for-inout", name)
    found = [place for place in facts.places.values() if holds_neighbours(place) or place.shared_at]
    for place in sorted(found, key=lambda place: -place.cost)[:MOST]:
        yield single("read-only", place.name)


def waits(facts, seen):
    """Each wait alone, and those for tasks that depend items order too, all of a function together."""
    found = [name for name, _ in seen.waits.most_common() if BARRIER not in name]
    for name in found[:MOST]:
        yield single("drop-wait", name)
    ordered = {}
    for name in filter(found.__contains__, +seen.ordered):
        function = facts.functions.get(name.partition(" at ")[2], "")
        ordered.setdefault(function, []).append(name)
    for names in ordered.values():
        if len(names) > 1:
            yield Change(tuple(Request("drop-wait", name) for name in names))


def undeferred(facts):
    for name, place in facts.places.items():
        if place.undeferred and place.kind not in (SHARE, OF_THREADS):
            yield single("defer", name)


def own_tasks(facts):
    """Code of a task after the creation of another one, which may run beside what follows it."""
    found = [place for place in facts.places.values() if place.name.startswith(("after taskwait", "after taskgroup"))
             and place.kind not in (SERIAL, SHARE)]
    for place in sorted(found, key=lambda place: -place.cost)[:2]:
        yield single("task", place.name)


def candidates(facts, seen):
    """What may help, each kind where there is a reason for it."""
    out = list(readers(facts)) + list(undeferred(facts)) + list(waits(facts, seen)) + list(splits(facts))
    out += [single("drop-depend", name) for name, _ in (+seen.dependent).most_common(2)]
    out += list(map(Change, renamings(facts)[:MOST]))
    return out + list(own_tasks(facts))


class Bench:
    """A text on which changes are tried, on as many threads as the run could have had. All have these seconds, with
    the reading of the text; `longest` is what one of them took."""

    def __init__(self, text, facts, end_of, seconds):
        self.facts, self.end_of, self.path = facts, end_of, text.path
        self.until, self.longest = time.monotonic() + seconds, 0
        self.unit = text.head.nanoseconds or 1
        self.kept = text.statements()
        self.seen = survey(self.kept)
        self.costs = costs_for(text.head, self.seen)

    def candidates(self):
        return best_first(candidates(self.facts, self.seen), lambda change: change.kind)

    def has_time(self):
        """For one more."""
        return time.monotonic() + self.longest < self.until

    def end(self, requests):
        """Where the greedy run ends with these changes made; None where they change nothing."""
        begun = time.monotonic()
        end = self.greedy_end(requests)
        self.longest = max(self.longest, time.monotonic() - begun)
        return end

    def end_on(self, threads):
        """The same without changes, on so many threads."""
        return self.end_of(self.path, threads) * self.unit

    def greedy_end(self, requests):
        if not requests:
            return self.end_on(self.facts.usable)
        text = self.text_with(requests)
        end = greedy_end(text, self.facts.usable) if text else None
        return end * self.unit if end is not None else None

    def text_with(self, requests):
        """None where they change nothing."""
        made = changes(requests, self.seen, self.costs)
        text = applied(self.kept, made).text()
        return text if all(one.count for one in made) else None

    def one(self, before, change):
        """None where it cannot be made, or there is no time."""
        if not self.has_time():
            return None
        try:
            end = self.end(before + change.requests)
        except (Fault, OSError):
            return None
        return Tried(change, end) if end is not None else None

    def tries(self, found, before=()):
        """Those of the changes that can be made, on top of others."""
        ask = client.at_once if len(self.kept) < LARGE else map
        shown = each(found, Progress("trying changes"))
        return list(filter(None, ask(lambda change: self.one(tuple(before), change), shown)))
