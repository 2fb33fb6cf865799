#!/usr/bin/env python3
"""Counts the lines of code and of proofs that stand more than once.

    repeated_lines.py             fails where more lines are repeated than BOUNDS allows
    repeated_lines.py --list [N]  the N longest runs of lines that stand twice (20), each with its places

A line is repeated where it is one of six lines in a row that stand, word for word, somewhere else too. Layout does not
count, nor do blank lines, imports and lines without a word. Parameters of functions do not count either, since whatever
implements a trait has to repeat them. Crates of tests are left out.
"""
import collections
import pathlib
import re
import sys

from crate_picture import LEFT_OUT

TOP = pathlib.Path(__file__).resolve().parents[2]
WINDOW = 6
BOUNDS = {".rt": 92, ".antt": 175}  # of 10,000 lines; lower them when there are fewer
SLACK = 20  # a bound further off than this has to be lowered
IMPORT = re.compile(r"(pub |ghost )*use |(pub )?mod ")
PARAMETERS = re.compile(r"(.* )?fn \w+.*\($")


def counted(text):
    """The lines of a file that count, each as its number and its text without layout."""
    lines, end = [], ""
    for number, line in enumerate(text.splitlines(), 1):
        line = " ".join(line.split())
        if end:
            end = "" if line.startswith(end) or (end == "}" and end in line) else end
        elif IMPORT.match(line):
            end = "}" if line.endswith("{") else ""
        elif re.search(r"\w", line):
            lines.append((number, line))
            end = ")" if PARAMETERS.match(line) else ""
    return lines


def windows(files):
    """Where each row of WINDOW lines stands: for its texts the pairs of a file and of its first line's place there."""
    places = collections.defaultdict(list)
    for name, lines in files.items():
        for first in range(len(lines) - WINDOW + 1):
            places[tuple(text for _, text in lines[first:first + WINDOW])].append((name, first))
    return places


def repeated(files):
    """The lines that are repeated: pairs of a file and of a place in it."""
    return {(name, first + step) for found in windows(files).values() if len(found) > 1
            for name, first in found for step in range(WINDOW)}


def longest_runs(files):
    """Runs of lines that stand in two places, the longest first: how many lines, and the two places."""
    pairs = {(one, other) for found in windows(files).values()
             for at, one in enumerate(found) for other in found[at + 1:]}
    runs = []
    for one, other in pairs:
        if ((one[0], one[1] - 1), (other[0], other[1] - 1)) in pairs:
            continue
        length = WINDOW
        while ((one[0], one[1] + length - WINDOW + 1), (other[0], other[1] + length - WINDOW + 1)) in pairs:
            length += 1
        runs.append((length, one, other))
    return sorted(runs, key=lambda run: (-run[0], run[1:]))


def read_files(ending):
    """The lines that count of each file with this ending, by its path below crates/."""
    crates = TOP / "crates"
    paths = [path for path in sorted(crates.rglob("*" + ending)) if "out" not in path.relative_to(crates).parts]
    kept = [path for path in paths if not LEFT_OUT.search(path.relative_to(crates).parts[0])]
    return {str(path.relative_to(crates)): counted(path.read_text(encoding="utf-8")) for path in kept}


def judged(ending, count, of, bound):
    """A line on the files of this ending, and whether their bound is kept and near."""
    reported = "%d of %d lines of *%s are repeated; the bound is %d of 10,000" % (count, of, ending, bound)
    share = 10_000 * count / of
    if share > bound:
        return reported + ": say once what you have written twice (checks/sources/repeated_lines.py --list)", False
    if share < bound - SLACK:
        return reported + ": lower it in checks/sources/repeated_lines.py", False
    return reported, True


def print_runs(files, most):
    for length, one, other in longest_runs(files)[:most]:
        reported = ["%s:%d" % (name, files[name][place][0]) for name, place in (one, other)]
        print("%4d lines  %s  %s" % (length, *reported))


def main(words):
    if words[:1] == ["--list"]:
        for ending in BOUNDS:
            print_runs(read_files(ending), int(words[1]) if words[1:] else 20)
        return 0
    kept = True
    for ending, bound in BOUNDS.items():
        files = read_files(ending)
        reported, fits = judged(ending, len(repeated(files)), sum(map(len, files.values())), bound)
        print(reported)
        kept = kept and fits
    return 0 if kept else 1


if __name__ == "__main__":
    sys.exit(main(sys.argv[1:]))
