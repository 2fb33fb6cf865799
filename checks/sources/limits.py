#!/usr/bin/env python3
"""Finds numbers that definitions cite by a constant and no law fixes.

A definition that names a limit by its constant says nothing of the number: the code may change it, and all is proved as
before. So a law, a function in some crate's src/laws.rt, has the number as a literal: `ensures rows { MOST_ROWS ≡
4_000_000_000 }`. Without arguments; status 1 where a constant has none. Tests: test_limits.py.
"""
import pathlib
import re
import sys

CRATES = pathlib.Path(__file__).resolve().parents[2] / "crates"
NUMBER = re.compile(r"\bconst ([A-Z][A-Z0-9_]*): [ui](?:8|16|32|64|128|size) =")
IMPORT = re.compile(r"use Rattle\.(\w+)\.specs\.declared\.([\w.]+)\.TheConstants\.\{([^}]*)\}")
LAW = re.compile(r"ensures \w+ \{ ([A-Z][A-Z0-9_]*) ≡ [0-9_ ^*+-]+\}")


def declared(crate, module, source):
    """The constants of a module that are numbers, each with its crate and module."""
    return {f"{crate}.{module}.{name}" for name in NUMBER.findall(source)}


def imported(text):
    """The constants that a text imports, by their names there: where each is declared."""
    return {name.strip(): f"{crate}.{module}.{name.strip()}"
            for crate, module, names in IMPORT.findall(text) for name in names.split(",")}


def fixed(laws):
    """The constants whose numbers stand in a file of laws."""
    known = imported(laws)
    return {known[name] for name in LAW.findall(laws) if name in known}


def without_law(numbers, texts, laws):
    """The numbers that these definitions cite and none of the laws fixes, in order."""
    cited = set().union(*(imported(text).values() for text in texts))
    return sorted((cited & numbers) - set().union(*map(fixed, laws)))


def numbers_of(crate):
    """The constants of a crate that are numbers."""
    source = crate / "src"
    return set().union(*(declared(crate.name, ".".join(file.relative_to(source).with_suffix("").parts),
                                  file.read_text()) for file in source.rglob("*.rt")))


def main():
    numbers = set().union(*(numbers_of(crate) for crate in CRATES.iterdir() if crate.is_dir()))
    texts = [file.read_text() for file in CRATES.glob("*/specs/**/*.antt")]
    laws = [file.read_text() for file in CRATES.glob("*/src/laws.rt")]
    left = without_law(numbers, texts, laws)
    for name in left:
        print(f"{name}: a definition cites it, and no law in a src/laws.rt has its number")
    if left:
        sys.exit(1)


if __name__ == "__main__":
    main()
