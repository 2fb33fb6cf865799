#!/usr/bin/env python3
"""Compares what pages say first with what the terminal said of the same recording.

    first_screens.py FOLDER NAME ..    FOLDER/NAME.html is the page, and FOLDER/NAME.said what the terminal showed
The status is 0 where each page has the causes and the changes of the terminal, as far as these were not cut.
"""
import os
import re
import sys
from html import unescape

LINE = re.compile(r"^(?:lost|do|then|    )  (?: ?\d+ %  )?(.*?)(?:  +\S+ \S+ -> .*|\.\.\..*)?$")
SCREEN = re.compile(r'<div class="diagnosis given">(.*?)<p class="sure">', re.S)


def sentences(said):
    """Of the lines that name a cause or a change, between the first and the one that says how sure that is."""
    found = []
    for line in said.split("\n"):
        if line.startswith("sure"):
            break
        match = LINE.match(line)
        if match:
            found.append(match[1].strip())
    return found


def missing(page, said):
    screen = SCREEN.search(page)
    shown = unescape(re.sub("<[^>]*>", "", screen[1])) if screen else ""
    reported = sentences(said)
    return [words for words in reported if words not in shown] if reported else ["no cause"]


def read(folder, name):
    with open(os.path.join(folder, name), encoding="utf-8") as file:
        return file.read()


def main(words):
    folder, *names = words
    wrong = 0
    for name in names:
        gone = missing(read(folder, name + ".html"), read(folder, name + ".said"))
        wrong += bool(gone)
        print("%-6s %s%s" % ("WRONG" if gone else "ok", name, "".join("\n       not there: " + one for one in gone)))
    sys.exit(wrong > 0)


if __name__ == "__main__":
    main(sys.argv[1:])
