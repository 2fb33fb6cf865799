#!/usr/bin/env python3
"""Puts the table that a script of this folder printed into tables.txt, between the script's markers.

    bench/instructions.sh > /tmp/printed && bench/update_tables.py instructions < /tmp/printed
    bench/update_tables.py [--fewer] commands | instructions | large
Standard input is what the script printed. It is refused where it has no table, where both programs printed different
reports, where a line of the table is no row, and where a row of the page's table is missing, unless `--fewer` says that
this is meant.
"""
import pathlib
import re
import sys

PAGE = pathlib.Path(__file__).resolve().parent / "tables.txt"
HEADS = {
    "commands": "text command ms plain ms times MiB plain times",
    "instructions": "text command spanprof plain times",
    "large": "text MB seconds plain times MiB plain",
}
NUMBERS = {"commands": 6, "instructions": 3, "large": 6}


class Refused(Exception):
    pass


def marked(script):
    """What finds the marker before a script's table, the table if there is one yet, and the marker behind it."""
    begin, end = (re.escape("<!-- %s bench/%s.sh -->\n" % (which, script)) for which in ("begin", "end"))
    return re.compile("(%s)(?:```\n([^`]*)```\n)?(%s)" % (begin, end))


def name_of(row, script):
    """The text of a row, and its command or threads, as one line of words."""
    found = re.fullmatch(r"(\w+(?: +\w[-\w ]*?)?)(?: +\d+\.\d+){%d}" % NUMBERS[script], row)
    if found is None:
        raise Refused("no row of %s.sh: %s" % (script, row))
    return " ".join(found[1].split())


def table_of(printed, script):
    """The lines of the table in what was printed. Lines before its head are left out."""
    lines = printed.splitlines()
    for line in lines:
        if "DIFFERENT" in line:
            raise Refused("what both programs print differs: %s" % line)
    heads = [place for place, line in enumerate(lines) if " ".join(line.split()) == HEADS[script]]
    if len(heads) != 1 or heads[0] + 1 == len(lines):
        raise Refused("no table of %s.sh: its head is: %s" % (script, HEADS[script]))
    for row in lines[heads[0] + 1:]:
        name_of(row, script)
    return lines[heads[0]:]


def page_with(page, printed, script, fewer=False):
    """The page with this table in the place of the script's."""
    found = marked(script).findall(page)
    if len(found) != 1:
        raise Refused("the page has %d tables of %s.sh between markers" % (len(found), script))
    table, before = table_of(printed, script), found[0][1].splitlines()
    names = {name_of(row, script) for row in table[1:]}
    missing = [name for name in (name_of(row, script) for row in before[1:]) if name not in names]
    if missing and not fewer:
        raise Refused("%d rows of the page are missing, first: %s" % (len(missing), missing[0]))
    return marked(script).sub(lambda parts: parts[1] + "\n".join(["```", *table, "```\n"]) + parts[3], page)


def main():
    words = sys.argv[1:]
    scripts = [word for word in words if word != "--fewer"]
    if len(scripts) != 1 or scripts[0] not in HEADS:
        print(__doc__, file=sys.stderr)
        return 2
    try:
        page = page_with(PAGE.read_text(encoding="utf-8"), sys.stdin.read(), scripts[0], "--fewer" in words)
    except Refused as refused:
        print("error: %s" % refused, file=sys.stderr)
        return 1
    PAGE.write_text(page, encoding="utf-8")
    return 0


if __name__ == "__main__":
    sys.exit(main())
