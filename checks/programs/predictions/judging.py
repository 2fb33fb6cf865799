"""Predictions beside true times: how far they are off, and the widths of intervals that they give."""
import math
import statistics
from dataclasses import dataclass
from typing import Tuple

from measured import HERE   # with it the tools are found

from spanprof.predict.estimate import kind_of
from spanprof.predict.interval import CHANGED, OF_GROWTH, OF_SPREAD, SEVERAL, Width

assert HERE
FITTED = 0.97   # of the cases are within the widths that are fitted, so that nine of ten of other programs' are


@dataclass(frozen=True)
class Case:
    """What is predicted from recordings on which threads, and how near it is to be: in the median, in nine of ten."""
    of: Tuple[int, ...]
    threads: int
    median: float
    nine_of_ten: float
    is_changed: bool = False

    @property
    def kind(self):
        """That of the interval's width."""
        return CHANGED if self.is_changed else kind_of(self.of, self.threads)

    @property
    def name(self):
        return "%d threads from %s" % (self.threads, " and ".join(map(str, self.of)))


@dataclass(frozen=True)
class Judged:
    program: str
    turn: int       # of its recording
    case: Case
    time: float
    low: float
    high: float
    grown: float
    true: float
    recordings: int = 1     # on each number of threads
    apart: float = 0.0

    @property
    def error(self):
        return self.time / self.true - 1

    @property
    def far(self):
        """As a logarithm."""
        return abs(math.log(self.time / self.true))

    @property
    def beyond(self):
        """How far it is beyond what growth and spread account for."""
        return self.far - OF_GROWTH * abs(self.grown) - OF_SPREAD * self.apart

    @property
    def is_by_several(self):
        return self.recordings >= SEVERAL

    @property
    def is_covered(self):
        return self.low <= self.true <= self.high


def of_estimate(one, program, turn, case, true, recordings):
    return Judged(program, turn, case, one.time, one.low, one.high, one.grown, true, recordings, one.apart)


def quantile(numbers, share):
    """The least of them that so many are within."""
    return sorted(numbers)[max(math.ceil(share * len(numbers)), 1) - 1]


def conformal(numbers, share=FITTED):
    """The width within which another one lies with this chance, as far as they are alike."""
    ordered = sorted(numbers)
    return ordered[min(math.ceil(share * (len(ordered) + 1)), len(ordered)) - 1]


def widths(judged):
    """Those of each kind that these give, rounded up to hundredths."""
    beyond = {}
    for one in judged:
        beyond.setdefault(one.case.kind, {}).setdefault(one.is_by_several, []).append(one.beyond)
    return {kind: Width(*(math.ceil(100 * conformal(found[by_several])) / 100 for by_several in (False, True)))
            for kind, found in beyond.items()}


def held(judged):
    """How many have the truth in their interval, where that of each program is as wide as the others give."""
    count = 0
    for program in {one.program for one in judged}:
        given = widths([one for one in judged if one.program != program])
        count += sum(one.beyond <= given[one.case.kind][one.is_by_several] for one in judged if one.program == program)
    return count


def summary(judged):
    """Median, nine of ten, and worst error, and how many intervals have the truth."""
    errors = [abs(one.error) for one in judged]
    return statistics.median(errors), quantile(errors, 0.9), max(errors), sum(one.is_covered for one in judged)
