"""How far the truth may be from a prediction, as logarithms: what held in 97 of 100 cases of the programs that it is
fitted to (checks/programs/predictions), of which others hold fewer, and on gcc's runtime in nine of ten. The truth is
the median time of several runs."""
from math import log
from typing import NamedTuple

SEVERAL = 3         # recordings on each number of threads, from which on one that was made in a slow moment is outvoted
OF_GROWTH = 0.5     # of what was added to the work, by its logarithm
OF_SPREAD = 0.5     # of how far the predictions by several recordings are apart


class Width(NamedTuple):
    """By one recording, or two, on each number of threads, and by several."""
    by_one: float
    by_several: float


AS_RECORDED, ON_OTHERS, ALONE, CHANGED, ON_GCC = "as recorded", "on others", "alone", "changed", "on gcc"
WIDTHS = {AS_RECORDED: Width(0.21, 0.06),   # on as many threads as were recorded
          ON_OTHERS: Width(0.09, 0.08),     # on another number, where recordings tell how code grows
          ALONE: Width(0.29, 0.30),         # on another number, by recordings on one
          CHANGED: Width(0.28, 0.21),       # of a changed text
          ON_GCC: Width(0.44, 0.17)}        # on gcc's runtime at least: of 24 programs, as recorded, on a busy machine


def spread(times):
    """How far the middle half of the predictions, which are sorted, are apart."""
    left = len(times) // 4
    return log(times[-1 - left] / max(times[left], 1)) if len(times) > 1 else 0.0


def width(kind, recordings, apart, grown):
    """By so many recordings on each number of threads, whose predictions are so far apart."""
    found = WIDTHS[kind]
    return (found.by_several if recordings >= SEVERAL else found.by_one) + OF_SPREAD * apart + OF_GROWTH * abs(grown)
