#!/usr/bin/env python3
"""What the tester caught of the mutants, by rule, as tables in Markdown: table.py FOLDER SEEN.json [OWN.json]

FOLDER is what build.py made, SEEN.json the report of `spanprof-conformance mutants --built FOLDER`, and OWN.json what
own_tests.py wrote.
"""
import argparse
import json
import pathlib
import sys


def options_of(words=None):
    parser = argparse.ArgumentParser(description=__doc__.split("\n", maxsplit=1)[0])
    add = parser.add_argument
    add("folder", type=pathlib.Path, help="what build.py made")
    add("seen", type=pathlib.Path, help="the report of the tester")
    add("own", type=pathlib.Path, nargs="?", help="what own_tests.py wrote")
    return parser.parse_args(words)


class Counts:
    """What came of the mutants of a rule that break it."""

    def __init__(self, mutants, seen, own):
        wrong = [name for name, fields in mutants.items() if fields["breaks"] == "yes" and name in seen]
        self.wrong, self.kept = len(wrong), sum(name in seen for name in mutants) - len(wrong)
        self.caught = sum(bool(seen[name]["program"]) for name in wrong)
        self.escaped = [name for name in wrong if not seen[name]["program"]]
        self.false = [name for name in mutants if name in seen and name not in wrong and seen[name]["program"]]
        self.own = sum(bool(own.get(name)) for name in wrong)

    def cells(self, has_own):
        escaped = ", ".join(f"`{name}`" for name in self.escaped)
        return [self.wrong, self.caught, escaped, *([self.own] if has_own else []), self.kept, len(self.false)]


def rows(mutants, seen, own):
    """A row for each rule, and for all."""
    rules = sorted({fields["rule"] for fields in mutants.values()})
    groups = [*((rule, [rule]) for rule in rules), ("**all**", rules)]
    for title, chosen in groups:
        some = {name: fields for name, fields in mutants.items() if fields["rule"] in chosen}
        yield [title, *Counts(some, seen, own).cells(bool(own))]


def lines_of(heads, table):
    yield "| " + " | ".join(heads) + " |"
    yield "|" + "---|" * len(heads)
    for row in table:
        yield "| " + " | ".join(map(str, row)) + " |"


def main():
    options = options_of()
    mutants = json.loads((options.folder / "mutants.json").read_text())
    seen = json.loads(options.seen.read_text())
    own = json.loads(options.own.read_text()) if options.own else {}
    heads = ["rule", "break it", "caught", "not", *(["by its own tests"] if own else []), "break nothing",
             "of these refused"]
    print("\n".join(lines_of(heads, rows(mutants, seen, own))))
    return 0


if __name__ == "__main__":
    sys.exit(main())
