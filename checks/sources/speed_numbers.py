#!/usr/bin/env python3
"""Compares the numbers in README.md with the tables of bench/tables.txt. A row of README.md may have `–` in place of
numbers that the table does not have yet.

    checks/sources/speed_numbers.py [--write]
With `--write` the rows of README.md are made anew from the table first.
"""
import decimal
import pathlib
import re
import sys

TOP = pathlib.Path(__file__).resolve().parents[2]
SECTION = re.compile(r"^### How fast it is$(.*?)^##", re.MULTILINE | re.DOTALL)
COUNTS = re.compile(r"^## Instructions$(.*?)(?:^## |\Z)", re.MULTILINE | re.DOTALL)
MEASURED = re.compile(r"^(\w+) +(\w[-\w ]*?) {2,}(\d+\.\d) +(\d+\.\d) +(\d+\.\d\d)$", re.MULTILINE)
UNTOLD = "–"
TIMES = re.compile(r"^## Times and memory$(.*?)(?:^## |\Z)", re.MULTILINE | re.DOTALL)
TIMED = re.compile(r"^(\w+) +(\w[-\w ]*?) {2,}\d+\.\d +\d+\.\d +(\d+\.\d\d) ", re.MULTILINE)
RANGE = re.compile(r"these\s+rows\s+took\s+(\d+\.\d)\s+to\s+(\d+\.\d)\s+times\s+as\s+long")


def cells(row):
    return [cell.strip() for cell in row.strip().strip("|").split("|")]


def pairs(readme):
    """The text, the command and the two cells of each pair of numbers in the README's table."""
    section = SECTION.search(readme)
    head, _, *rows = [cells(line) for line in section[1].splitlines() if line.startswith("|")]
    for text, *row in rows:
        name = re.search(r"`(\w+)`", text)[1]
        for place in range(0, len(row), 2):
            yield name, head[1 + place].strip("`"), row[place:place + 2]


def quoted(readme):
    """By text and command, the two numbers that the README tells: spanprof's and the plain program's."""
    return {(text, command): tuple(int(cell.replace(",", "")) for cell in both)
            for text, command, both in pairs(readme) if both != [UNTOLD, UNTOLD]}


def unreported(readme, table):
    """A line for each pair that has a place in the README and numbers in the table, and not in the README."""
    for text, command, both in pairs(readme):
        if both == [UNTOLD, UNTOLD] and (text, command) in table:
            yield "%s %s: not reported, and %s and %s were measured" % (text, command, *table[text, command])


def measured(bench):
    """By text and command, the two numbers of the table in tenths, without what else it tells."""
    return {(row[1], row[2]): (row[3], row[4]) for row in MEASURED.finditer(COUNTS.search(bench)[1])}


def row_with(line, head, table):
    """This row of the README with the table's numbers, where the table has them."""
    first, *row = cells(line)
    name = re.search(r"`(\w+)`", first)[1]
    for place in range(0, len(row), 2):
        for which, number in enumerate(table.get((name, head[1 + place].strip("`")), ())):
            row[place + which] = "{:,}".format(rounded(number))
    return "| " + " | ".join([first, *row]) + " |"


def written(readme, table):
    """The README with the table's numbers in the place of those that it tells."""
    section = SECTION.search(readme)
    head, _, *rows = [line for line in section[1].splitlines() if line.startswith("|")]
    text = section[0]
    for line in rows:
        text = text.replace(line, row_with(line, cells(head), table))
    return readme[:section.start()] + text + readme[section.end():]


def rounded(tenths):
    whole, tenth = tenths.split(".")
    return int(whole) + (int(tenth) >= 5)


def differences(reported, table):
    """A line for each number that is told otherwise than it was measured."""
    for (text, command), numbers in reported.items():
        if (text, command) not in table:
            yield "%s %s: not in the table" % (text, command)
            continue
        for who, number, was in zip(("spanprof", "plain"), numbers, table[text, command]):
            if number != rounded(was):
                yield "%s %s, %s: %d is reported, and %s was measured" % (text, command, who, number, was)


def timed(bench):
    """By text and command, how many times as long it took, in hundredths, by the table of times."""
    return {(row[1], row[2]): row[3] for row in TIMED.finditer(TIMES.search(bench)[1])}


def nearest_tenth(hundredths):
    return str(decimal.Decimal(hundredths).quantize(decimal.Decimal("0.1"), decimal.ROUND_HALF_UP))


def range_differences(readme, rows, table):
    """A line for each row that was not timed, or one where the README's sentence tells another range."""
    missing = [row for row in rows if row not in table]
    if missing:
        yield from ("%s %s: not in the table of times" % row for row in missing)
        return
    found = RANGE.search(SECTION.search(readme)[1])
    if found is None:
        yield "no sentence says how many times as long these rows took"
        return
    took = sorted((table[row] for row in rows), key=decimal.Decimal)
    if found.groups() != (nearest_tenth(took[0]), nearest_tenth(took[-1])):
        yield "%s to %s times is reported, and %s to %s was measured" % (*found.groups(), took[0], took[-1])


def main():
    readme, bench = ((TOP / path).read_text(encoding="utf-8") for path in ("README.md", "bench/tables.txt"))
    if sys.argv[1:] == ["--write"]:
        readme = written(readme, measured(bench))
        (TOP / "README.md").write_text(readme, encoding="utf-8")
    reported = quoted(readme)
    wrong = [*differences(reported, measured(bench)), *unreported(readme, measured(bench)),
             *range_differences(readme, reported, timed(bench))]
    for line in wrong:
        print(line)
    print("%d texts and commands and a range compared: %d wrong" % (len(reported), len(wrong)))
    sys.exit(bool(wrong) or not reported)


if __name__ == "__main__":
    main()
