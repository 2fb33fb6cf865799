"""Segments of several recordings of one program, matched by shape.

A task is known by its place and its number among those of that place which its parent makes, a segment likewise within
its task. So what one recording has and another has not leaves the rest matched.
"""
from collections import Counter
from dataclasses import dataclass
from typing import Dict


class Names:
    """Numbers for tasks and segments, the same in all recordings."""

    def __init__(self):
        self.known = {}

    def number(self, name):
        return self.known.setdefault(name, len(self.known))

    def tasks_of(self, program):
        out, met = [0], Counter()
        for task in program.tasks[1:]:
            kind = (out[task.parent], task.place)
            met[kind] += 1
            out.append(self.number(("task", *kind, met[kind])))
        return out

    def of(self, program):
        """The name of each segment."""
        tasks, met, out = self.tasks_of(program), Counter(), []
        for place, owner in zip(program.places, program.owners):
            kind = (tasks[owner], place)
            met[kind] += 1
            out.append(self.number(("segment", *kind, met[kind])))
        return out


@dataclass
class Matched:
    """Costs of two recordings by place, of the segments that both have; and what the second has besides."""
    first: Dict[str, int]
    second: Dict[str, int]
    only_second: int


def matched(first, second):
    """Two programs' costs side by side."""
    names = Names()
    named = [dict(zip(names.of(one), range(len(one.costs)))) for one in (first, second)]
    both = named[0].keys() & named[1].keys()
    sums = []
    for program, numbers in zip((first, second), named):
        by_place = Counter()
        for name in both:
            segment = numbers[name]
            by_place[program.places[segment]] += program.costs[segment]
        sums.append(dict(by_place))
    return Matched(*sums, sum(second.costs) - sum(sums[1].values()))
