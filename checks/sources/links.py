#!/usr/bin/env python3
"""Finds links of the documents to files or headings that there are not.

    checks/sources/links.py
Links to the outside are left out, and so are those in blocks of code.
"""
import re
import sys

from sentences import HEADING, TOP, documents, without_code

LINK = re.compile(r"\]\(([^)\s]+)\)")
TEXT_OF_LINK = re.compile(r"\[([^\]]*)\]\([^)]*\)")


def anchor(heading):
    """As GitHub names a heading: small letters, blanks as hyphens, no other signs."""
    words = TEXT_OF_LINK.sub(r"\1", HEADING.sub("", heading, count=1))
    return re.sub(r"[^\w\- ]", "", words.lower()).replace(" ", "-")


def anchors(text):
    return {anchor(line) for _, line in without_code(text) if HEADING.match(line)}


def links(text):
    """Pairs of a line's number and a link in it, of those to files."""
    for number, line in without_code(text):
        yield from ((number, found) for found in LINK.findall(line) if not re.match(r"[a-z]+:", found))


def faults(path, read):
    """Triples of a line's number, the link and what is wrong with it. `read(path)` is the text of a document."""
    for number, link in links(read(path)):
        name, _, heading = link.partition("#")
        target = (path.parent / name).resolve() if name else path
        if not target.exists():
            yield number, link, "no such file"
        elif heading and target.suffix == ".md" and heading not in anchors(read(target)):
            yield number, link, "no such heading"


def main():
    wrong = 0
    for path in documents():
        for number, link, what in faults(path, lambda one: one.read_text(encoding="utf-8")):
            print("%s:%d: %s: %s" % (path.relative_to(TOP), number, link, what))
            wrong += 1
    print("%d wrong" % wrong)
    return 1 if wrong else 0


if __name__ == "__main__":
    sys.exit(main())
