#!/usr/bin/env python3
"""Reads the words of the page on callers.c, recorded with call paths. Each sentence here is one that was wrong, missing
or cut on such a page.

    worded.py FOLDER    FOLDER has callers.html and its recording
"""
import os
import re
import sys
from html import unescape

AT = r"callers\.c:\d+"
RIGHT = {
    "callers": [
        r"recorded from callers, the whole program: 1 region",
        r"called from solve at " + AT,
    ],
}
WRONG = {
    "callers": [r"the one that is the median", r"There are no recorded times", r"the region's own code", r"the root",
                r"−0\.0 %", r"\b1 waits", r"cost of after ", r"\d,\d{3}\.\d %"],
}
LONGEST = 44    # letters of a line in a box of the graph, but for a name that is a place alone
CALLED = re.compile(r"<text[^>]*><tspan[^>]*>([^<]*called from [^<]*)</tspan></text>")


def words_of(page):
    """What a reader sees of it, without pictures' tooltips, scripts and styles."""
    seen = re.sub(r"(?s)<(script|style|title)\b.*?</\1>", " ", page)
    seen = re.sub(r"<wbr/>", "", seen)
    return re.sub(r"\s+([.,:;])", r"\1", " ".join(unescape(re.sub(r"<[^>]*>", " ", seen)).split()))


def faults_of(name, page):
    words = words_of(page)
    yield from ("lacks: " + pattern for pattern in RIGHT[name] if not re.search(pattern, words))
    for pattern in WRONG[name]:
        yield from ("has: " + found[0] for found in [re.search(r".{0,30}%s.{0,30}" % pattern, words)] if found)
    yield from ("too long for a box: " + line for line in map(unescape, CALLED.findall(page)) if len(line) > LONGEST)


def main(words):
    if len(words) != 1:
        sys.exit(__doc__)
    wrong = 0
    for name in RIGHT:
        with open(os.path.join(words[0], name + ".html"), encoding="utf-8") as file:
            faults = list(faults_of(name, file.read()))
        print("\n".join(["%s: %s" % (name, "%d wrong" % len(faults) if faults else "right"),
                         *("  " + fault for fault in faults)]), flush=True)
        wrong += len(faults)
    sys.exit(wrong > 0)


if __name__ == "__main__":
    main(sys.argv[1:])
