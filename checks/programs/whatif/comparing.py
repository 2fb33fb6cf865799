"""Compares the numbers and the shape of a changed text with those of a rewritten program's text."""
from itertools import zip_longest
from typing import NamedTuple

from spanprof.program_text import Statement

TOLERANCE = 0.05


class Ends(NamedTuple):
    """`moved` is the rewritten program's work beside that of the changed text."""
    threads: int
    was: int
    predicted: int
    rewritten: int
    moved: float = 1

    @property
    def error(self):
        return (self.predicted - self.rewritten) / self.rewritten

    @property
    def error_of_gain(self):
        """Of work / end, which stays where a busy machine has moved all costs alike."""
        return self.rewritten / self.predicted / self.moved - 1

    @property
    def is_by_gain(self):
        """Whether the ends differ only since the machine has moved the work itself by as much."""
        return abs(self.error) > TOLERANCE and abs(self.moved - 1) > TOLERANCE / 2 and \
            abs(self.error_of_gain) <= TOLERANCE

    @property
    def fault(self):
        return "" if abs(self.error) <= TOLERANCE or self.is_by_gain else "on %d threads %s" % (self.threads, self)

    def __str__(self):
        by_gain = ", work / end %+.1f %%: the work is %+.1f %%" % (
            100 * self.error_of_gain, 100 * (self.moved - 1)) if self.is_by_gain else ""
        return "%d, %d predicted, %d rewritten (%+.1f %%%s)" % (
            self.was, self.predicted, self.rewritten, 100 * self.error, by_gain)


def ends(reported, own, threads):
    """Of the text, of the changed text, and of the rewritten program's."""
    key, all_three = str(threads), (reported["text"], reported["changed text"], own)
    return Ends(threads, *(numbers["threads"][key]["end"] for numbers in all_three),
                own["work"] / reported["changed text"]["work"])


def work(statements):
    return sum(one.cost for one in statements)


def pieces(statements):
    """What a text has beside costs, and the cost of the code before each of it and at the end; with the code's name."""
    constructs, costs = [], [(0, "")]
    for one in statements:
        if one.kind == "work":
            costs[-1] = costs[-1][0] + one.cost, one.name
        else:
            constructs.append(one)
            costs.append((0, ""))
    return constructs, costs


def least(runs):
    """Of several runs of one program, each a list of statements: each piece of code at the least that it cost in one of
    them. Where they have not one shape, it is the run with the least work."""
    shapes, costs = zip(*map(pieces, runs))
    if any(list(shape(one)) != list(shape(shapes[0])) for one in shapes):
        return min(runs, key=work)
    out = []
    for construct, *several in zip(shapes[0] + [None], *costs):
        cost, name = min(several)
        out += [Statement("work", name, cost)] * (cost > 0) + [construct] * (construct is not None)
    return out


def largest(statements, place):
    return max(one.cost for one in statements if one.kind == "work" and one.name == place)


def without_empty_groups(statements):
    """Without what stands in place of a dropped wait."""
    begun = None
    for one in statements:
        is_empty = begun and one.of == "taskgroup"
        if begun and not is_empty:
            yield begun
        begun = one if one.kind == "taskgroup" else None
        if not begun and not is_empty:
            yield one


def shape(statements):
    """What a text has beside costs: names of depend items by their first mention, and no places."""
    names = {}
    for one in statements:
        if one.kind != "work":
            items = tuple((kind, names.setdefault(name, len(names))) for kind, name in one.items)
            yield one.kind, one.of, one.is_undeferred, items


def first_difference(shape, other):
    for number, (one, another) in enumerate(zip_longest(shape, other), 1):
        if one != another:
            return "statement %d of the changed text is %s, and %s of the rewritten program's" % (number, one, another)
    return ""
