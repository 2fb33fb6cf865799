"""Pieces of HTML and SVG: elements, and words that are escaped unless they are pieces themselves; tables, of which a
column of numbers can be sorted by its head; and the colours, on light paper and on dark, as rules that browsers
without `light-dark()` take too.

Those of the timelines are P. Tol's `muted`, which people who see no red or no green can tell; on dark paper lighter.
"""
import re
from html import escape

EMPTY = {"br", "hr", "input", "meta", "wbr", "line", "rect", "circle", "path", "polyline", "polygon"}
COLOURS = {
    "paper": ("#ffffff", "#14181d"), "panel": ("#f6f7f9", "#1d232a"), "ink": ("#1c2128", "#e4e8ec"),
    "soft": ("#59636e", "#9aa5b1"), "rule": ("#d9dee4", "#343c46"), "grid": ("#e8ebef", "#262d35"),
    "accent": ("#1f5fbf", "#78aef5"), "second": ("#b3590a", "#f0a05a"), "red": ("#c8281e", "#ff6b60"),
    "measured": ("#8a5300", "#e3b25c"), "recorded": ("#1f5fbf", "#78aef5"), "proved": ("#18703a", "#66c98a"),
    "declared": ("#6d3fa0", "#c59cf0"),
}
BARS = (("#88ccee", "#8fd8f5"), ("#cc6677", "#e4788f"), ("#ddcc77", "#f0d47c"), ("#117733", "#27a35c"),
        ("#332288", "#6a46c4"), ("#aa4499", "#c58be8"), ("#44aa99", "#c4efdc"), ("#999933", "#8f9a24"),
        ("#882255", "#9c1f3e"), ("#c3c8ce", "#525c67"))    # the last is that of all others
MOST_COLOURS = len(BARS)
INKS = ("dddlllddld", "ddddldddll")     # of words on them: dark or light
INK = {"d": "#14181d", "l": "#ffffff"}


class Markup(str):
    """Text that is HTML already."""


def markup(piece):
    return piece if isinstance(piece, Markup) else Markup(escape(str(piece)))


def join(pieces, between=""):
    return Markup(between.join(markup(piece) for piece in pieces))


def breakable(name):
    """A file's name, or a place, that may be broken into lines at its signs."""
    return join(re.split(r"(?<=[_/])(?=.)", name), Markup("<wbr/>"))


def tag(name, *pieces, **attributes):
    """An element. An attribute that is None is left out; `class_` is class, `data_x` is data-x."""
    words = "".join(' %s="%s"' % (key.rstrip("_").replace("_", "-"), escape(str(value)))
                    for key, value in attributes.items() if value is not None)
    if name in EMPTY and not pieces:
        return Markup("<%s%s/>" % (name, words))
    return Markup("<%s%s>%s</%s>" % (name, words, join(pieces), name))


def note(*pieces):
    return tag("p", *pieces, class_="note")


def details(summary, *pieces, is_open=False, class_=None):
    return tag("details", tag("summary", summary), *pieces, open="" if is_open else None, class_=class_)


def section(name, title, *pieces, is_open=False):
    """A part of the page, folded until asked for."""
    return tag("section", details(tag("h2", title), *pieces, is_open=is_open), id=name)


def cell(name, piece, is_number, **attributes):
    return tag(name, markup(piece), class_="n" if is_number else None, **attributes)


def table(heads, rows, numeric=(), is_sortable=False):
    """`numeric` are the columns that stand to the right. Heads and cells are words or markup."""
    def head(i, words):
        inner = tag("button", markup(words), type="button") if is_sortable else words
        return cell("th", inner, i in numeric, scope="col")

    top = tag("thead", tag("tr", *[head(i, words) for i, words in enumerate(heads)]))
    lines = [tag("tr", *[cell("td", piece, i in numeric) for i, piece in enumerate(row)]) for row in rows]
    made = tag("table", top, tag("tbody", *lines), class_="sortable" if is_sortable else None)
    return tag("div", made, class_="wide")


def place_cell(name, line="", colour=None):
    """A place with its line of the source, and the colour that stands for it in timelines."""
    key = tag("i", class_="key c%d" % colour) if colour is not None else ""
    return tag("span", key, tag("span", breakable(name), class_="place"), tag("code", line) if line else "",
               class_="where")


def bar(percent):
    """A thin bar below a share."""
    return tag("span", tag("i", style="width:%.1f%%" % min(percent, 100)), class_="bar")


def variables(number):
    """`number` is 0 for light paper, and 1 for dark."""
    named = {name: pair[number] for name, pair in COLOURS.items()}
    for i, pair in enumerate(BARS):
        named.update({"c%d" % i: pair[number], "t%d" % i: INK[INKS[number][i]]})
    return " ".join("--%s: %s;" % pair for pair in named.items())


def colour_rules():
    light, dark = (variables(number) for number in (0, 1))
    rule = ".lanes .c%d { fill: var(--c%d); } .lanes .t%d { fill: var(--t%d); } .key.c%d { background: var(--c%d); }"
    of_bars = (rule % ((i,) * 6) for i in range(MOST_COLOURS))
    return "\n".join([":root { color-scheme: light; %s }" % light,
                      "@media (prefers-color-scheme: dark) { :root { color-scheme: dark; %s } }" % dark,
                      *of_bars, "@media print { :root { color-scheme: light; %s } }" % light]) + "\n"
