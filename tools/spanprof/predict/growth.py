"""How code gets dearer with more threads, by place: each doubling adds a share of what the last one did.

Of recordings on a and on b threads, of which the medians count; on one thread every task is undeferred, and the code of
its creation is cheaper.
"""
import statistics
from math import log2

from spanprof.predict.matching import matched

SHARE = 0.75    # fitted to the programs of checks/programs/predictions: from 0.05 to 2.3 of what the last one added
LEAST = 0.01    # of the work: what a place with less has grown by is not reported from its spread


def doublings(fewer, more, threads):
    """How many steps as that from `fewer` to `more` lie between `more` and a number of threads."""
    return log2(threads / more) / log2(more / fewer)


def pairs(first, second):
    """Each recording of the longer list with one of the other."""
    return [(first[i % len(first)], second[i % len(second)]) for i in range(max(len(first), len(second)))]


def medians(several):
    """By place, of costs by place."""
    places = {place for one in several for place in one}
    return {place: statistics.median(one.get(place, 0) for one in several) for place in places}


class Growth:
    """Of recordings on fewer and on more threads, several of each."""

    def __init__(self, fewer, more):
        self.fewer, self.more = fewer[0].threads, more[0].threads
        found = [matched(one.program, other.program) for one, other in pairs(fewer, more)]
        self.first, self.second = medians([one.first for one in found]), medians([one.second for one in found])
        self.work = statistics.median(one.work for one in fewer)
        self.unmatched = statistics.median(
            one.only_second / max(sum(one.second.values()) + one.only_second, 1) for one in found)
        self.added = statistics.median(one.outside for one in more) - statistics.median(one.outside for one in fewer)

    def inflation(self, place):
        """Of the code that both have: cost on more threads over that on fewer; 1 where fewer tell nothing."""
        before = self.first.get(place, 0)
        return self.second.get(place, 0) / before if before else 1.0

    def factor(self, place, threads):
        """By what a cost on `more` threads is multiplied for another number of them."""
        is_heavy = self.first.get(place, 0) >= LEAST * self.work
        inflation = self.inflation(place) if is_heavy else 1.0
        if inflation <= 1:
            return 1.0
        steps = doublings(self.fewer, self.more, threads)
        added = (1 - 1 / inflation) * (SHARE * steps if steps > 0 else steps)
        return max(1 + added, 1 / inflation)

    def costs(self, program, threads):
        factors = {place: self.factor(place, threads) for place in set(program.places)}
        return [round(cost * factors[place]) for cost, place in zip(program.costs, program.places)]

    def outside(self, one, threads):
        """The threads of a region are made one after the other where it is the first one."""
        return one.outside + max(self.added, 0) * doublings(self.fewer, self.more, threads)
