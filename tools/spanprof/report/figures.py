"""Numbers of the page, with times as people read them: in the largest unit in which there is at least one, with three
digits. Each tells where it comes from: it carries the answer of spanprof that it is, or the sum.

A source is written in a few words that the tests read again: `span work`, `curve 4 end`, `place 3 cost`. `A - B` is
a difference, `A / B` a quotient, `percent A / B` the same in per cent.
"""
import math
import re
from typing import NamedTuple

from spanprof.client import proved
from spanprof.report.markup import join, tag

STEPS = (("ns", 1), ("µs", 1000), ("ms", 10 ** 6), ("s", 10 ** 9))
DIGITS = 3
MEASURED, RECORDED, PROVED, DECLARED = "measured", "recorded", "proved", "declared"
MEANINGS = {
    MEASURED: "read from the recorder's clock, or a sum or quotient of such readings",
    DECLARED: "declared in the text, or a sum of such costs",
    RECORDED: "from the run: tasks and segments, dependences, the order of events",
    PROVED: "follows from the text's costs and shape, %s; it holds of the recorded program as far as the text is that "
            "program",
}
OF_THE_TEXT = "proved of the text"


class Shown(NamedTuple):
    """The words of a time, and by how much its number was divided."""
    words: str
    scale: float = 1


def grouped(value, digits=0):
    """With a comma before each three digits."""
    words = "{:,.{}f}".format(value, digits)
    return words.replace("-", "−" if re.search("[1-9]", words) else "")


def unit_name(unit):
    """As it stands after a number: `250 ns` is a unit of its own, of which there are so many."""
    if unit[:1].isdigit():
        return "× " + unit
    return {"us": "µs"}.get(unit, unit)


def digits_of(value, way=None):
    """How many digits after the point make three in all."""
    for digits in (2, 1):
        if abs(round(rounded(value, digits, way), digits)) < 10 ** (DIGITS - digits):
            return digits if value else 0
    return 0


def rounded(value, digits, way):
    """As the page's tests round: to the nearest, or so that a bound is never reported better than it is."""
    if not way:
        return value
    near = round(value * 10 ** digits, 6)   # a quotient in binary is not quite itself
    return (math.ceil if way == "up" else math.floor)(near) / 10 ** digits


class Units:
    """Of the costs of a text. Without a unit that names a time they stand as they are."""

    def __init__(self, head):
        self.name, self.nanoseconds = unit_name(head.unit), head.nanoseconds

    def exact(self, value):
        """The number of the text with its unit."""
        return grouped(value, int(value % 1 > 0)) + (" " + self.name if self.name else "")

    def plain(self, value):
        """The same without a unit that is a number too."""
        return grouped(value) if self.name[:1] == "×" else self.exact(value)

    def shown(self, value, way=None):
        if not self.nanoseconds:
            return Shown(self.exact(value))
        for name, size in reversed(STEPS):
            scale = size / self.nanoseconds
            if size <= self.nanoseconds or round(rounded(abs(value) / scale, DIGITS, way), DIGITS) >= 1:
                break
        digits = int(value % 1 > 0) if scale == 1 else digits_of(value / scale, way)
        return Shown("%s %s" % (grouped(rounded(value / scale, digits, way), digits), name), scale)


def percent(part, whole):
    return 100 * part / whole if whole else 0.0


def rounded_down(above, below):
    """A quotient that is never reported greater than it is."""
    return "%d.%02d" % divmod(100 * above // below, 100) if below else "1.00"


def rounded_up(above, below):
    """A quotient that is never reported less than it is."""
    return "%d.%02d" % divmod(-(-100 * above // below), 100) if below else "1.00"


def label(kind):
    """The word for a kind of number; what is proved is proved of the text."""
    return proved(OF_THE_TEXT) if kind == PROVED else kind


def meaning(kind):
    words = MEANINGS[kind]
    return words % proved("computed by a program that is proved correct") if kind == PROVED else words


class Figures:
    """The numbers of the page."""

    def __init__(self, units=None):
        self.units = units

    def data(self, words, value, source, kind, rounded=None, exact="", scale=1):
        """`exact` is the number in full, and `scale` what it is divided by where it is seen."""
        carried = value if isinstance(value, int) else "%.6g" % value
        reported = "%s (%s)" % (label(kind), source)
        return tag("data", words, value=carried, title="%s: %s" % (exact, reported) if exact else reported,
                   data_from=source, data_rounded=rounded,
                   data_scale=None if scale == 1 else "%.12g" % scale, class_=kind)

    def number(self, value, source, kind, digits=0):
        """A number as HTML. Its title says whether it was measured, recorded or proved, and by which answer."""
        return self.data(grouped(value, digits), value, source, kind)

    def time(self, value, source, kind, rounded=None):
        """A time in a human unit; in full it is the title's. What bounds is rounded `up` or `down`, its own way."""
        words, scale = self.units.shown(value, rounded)
        return self.data(words, value, source, kind, rounded, self.units.exact(value), scale)

    def share(self, part, whole, source, kind):
        """A part of a whole in per cent; the source is that of the quotient."""
        value = percent(part, whole)
        return self.data(grouped(value, 1) + " %", value, "percent " + source, kind)

    def times_at_most(self, above, below, source, kind):
        """A quotient that nothing passes, rounded up."""
        return self.data(rounded_up(above, below), above / below if below else 1.0, source, kind, "up")

    def times_at_least(self, above, below, source, kind):
        """A quotient that is always reached, rounded down."""
        return self.data(rounded_down(above, below), above / below if below else 1.0, source, kind, "down")

    def with_sources(self, name, words, sources, **attributes):
        """An element, as of a picture, whose words have one number for each of the sources, in this order."""
        return tag(name, words, data_from="; ".join(sources), **attributes)


def badge(kind):
    """The word itself, where a column or a tile holds numbers of one kind."""
    colour = kind if label(kind) in (kind, OF_THE_TEXT) else "unverified"
    return tag("span", label(kind), class_="badge " + colour, title=meaning(kind))


def badges(*kinds):
    return join([badge(kind) for kind in kinds], " ")
