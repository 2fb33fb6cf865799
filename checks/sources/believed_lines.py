#!/usr/bin/env python3
"""Counts the lines of definitions that a public function's clauses rest on.

    believed_lines.py                      fails where the counts of docs/BELIEVE.md are not those of the crates
    believed_lines.py --write              writes them anew
    believed_lines.py CRATE::FUNCTION ..   lists the definitions of each, each after those that it cites
    believed_lines.py --all                the count for each public function
    believed_lines.py --rest               the definitions on which no public clause rests, by file

Comments of a definition count, imports and blank lines don't; neither do the definitions of std and the types of the
code. Tests: `python3 -m unittest discover -s believed/tests -t .` in checks/.
"""
import difflib
import pathlib
import sys

from believed.library import read_library
from believed.page import with_lists

TOP = pathlib.Path(__file__).resolve().parents[2]
PAGE = TOP / "docs" / "BELIEVE.md"


def total(definitions):
    return sum(definition.lines for definition in definitions)


def list_one(library, promise):
    found = library.rests_on(promise)
    for definition in found:
        print(f"{definition.lines:4} {definition.module}.{definition.name}")
    print(f"{total(found):4} lines: {promise.title}")


def list_rest(library, promises):
    used = {definition for promise in promises.values() for definition in library.rests_on(promise)}
    left = {}
    for definition in library.definitions.values():
        if definition not in used:
            left.setdefault(definition.module, []).append(definition)
    for module, definitions in sorted(left.items()):
        print(f"{total(definitions):4} {module}: {', '.join(definition.name for definition in definitions)}")


def compare(library, promises):
    """Whether the page has the counts of the crates; tells where it has not."""
    reported = PAGE.read_text()
    counted = with_lists(reported, library, promises)
    sys.stdout.writelines(difflib.unified_diff(
        reported.splitlines(True), counted.splitlines(True), "docs/BELIEVE.md", "counted", n=0))
    return reported == counted


def main(words):
    library, promises = read_library(TOP)
    unknown = [word for word in words if not word.startswith("--") and word not in promises]
    if unknown:
        sys.exit(f"no public function with clauses: {', '.join(unknown)}")
    if words == ["--write"]:
        PAGE.write_text(with_lists(PAGE.read_text(), library, promises))
    elif words == ["--all"]:
        for title, promise in sorted(promises.items()):
            print(f"{total(library.rests_on(promise)):5} {title}")
    elif words == ["--rest"]:
        list_rest(library, promises)
    elif words:
        for word in words:
            list_one(library, promises[word])
    elif not compare(library, promises):
        sys.exit("docs/BELIEVE.md does not have the counts of the crates: believed_lines.py --write")
    else:
        print("docs/BELIEVE.md has the counts of the crates")


main(sys.argv[1:])
