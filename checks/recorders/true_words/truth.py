"""What is true of the programs of shapes.c, by how they are made; all times in milliseconds."""
from dataclasses import dataclass, replace
from math import ceil
from typing import Callable, Optional

MANY = 1024


@dataclass(frozen=True)
class Shape:
    """`work` is all code of the region, `least` a time that no run on so many threads is below."""
    name: str
    work: float
    least: Callable[[int], float]
    serial: float = 0.0     # code of the program outside of all regions
    is_plain: bool = False  # tasks alone, so that a text on several threads is the program
    other: Optional["Shape"] = None     # the program's other region, which has less work

    def most(self, threads=MANY):
        """How many times as fast as its work in a row no run on so many threads is."""
        return self.work / self.least(threads)

    @property
    def share(self):
        """Of the program's code, the region's."""
        return self.work / (self.work + self.serial + (self.other.work if self.other else 0))

    def whole(self, beginning):
        """The whole program, with so much code beside what is built in: its loading, the runtime's begin and end."""
        regions, serial = [self] + [self.other] * bool(self.other), self.serial + beginning
        return replace(self, work=serial + sum(region.work for region in regions), serial=0.0, other=None,
                       least=lambda threads: serial + sum(region.least(threads) for region in regions))


def in_rounds(count, length):
    """So many pieces of one length, on so many threads."""
    return lambda threads: ceil(count / threads) * length


def least_of_lock(threads):
    """Eight tasks of 1 outside the lock and 3 inside; the first to be inside was outside before."""
    return 32 if threads == 1 else max(32 / threads, 1 + 24)


FORK_JOIN = Shape("fork_join", 64, lambda threads: 4 * in_rounds(4, 4)(threads), is_plain=True)
SHAPES = (
    Shape("chain", 40, lambda threads: 40, is_plain=True),
    Shape("independent", 80, in_rounds(16, 5), is_plain=True),
    FORK_JOIN,
    Shape("loop", 66, lambda threads: in_rounds(32, 2)(threads) + 2),
    Shape("lock", 32, least_of_lock),
    Shape("doacross", 65, lambda threads: 65 if threads == 1 else 64),
    Shape("steps", 123, lambda threads: 30 * (in_rounds(8, 0.5)(threads) + 0.1)),
    Shape("serial", 80, in_rounds(16, 5), serial=120, is_plain=True),
    Shape("half", 80, in_rounds(16, 5), serial=20, is_plain=True),
    Shape("two_regions", 80, in_rounds(16, 5), serial=40, is_plain=True, other=FORK_JOIN),
)
