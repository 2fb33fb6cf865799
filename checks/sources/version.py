#!/usr/bin/env python3
"""Compares VERSION with CHANGELOG.md, the files of packages and the documents: one version, one logic.

    checks/sources/version.py
"""
import pathlib
import re
import sys

TOP = pathlib.Path(__file__).resolve().parents[2]
ABOUT = "crates/large_command/src/about.rt"     # what `spanprof_large --version` prints
OF_PACKAGES = ("include/spanprof.h", "packaging/spanprof.pc", "packaging/spanprof-config-version.cmake",
               "packaging/package.py", "packaging/meta.yaml")
LOGIC = re.compile(r"\blogic ([0-9a-f]{16})\b")


def faults(version, changes, packages, documents):
    """What disagrees with the text of VERSION: the changes' newest section, the one version in each file of packages,
    each logic that documents name."""
    number, logic = (version.splitlines() + ["", ""])[:2]
    if not re.fullmatch(r"\d+\.\d+\.\d+", number) or not LOGIC.fullmatch(logic):
        yield "VERSION has no version and no logic on its two lines"
        return
    newest = re.search(r"^## (\S+)", changes, re.M)
    if not newest or newest[1] != number:
        yield "CHANGELOG.md begins with %s, and VERSION has %s" % (newest[1] if newest else "nothing", number)
    for name, text in packages.items():
        if number not in re.findall(r"\b\d+\.\d+\.\d+\b", text):
            yield "%s has not version %s" % (name, number)
    if ABOUT in documents and '"spanprof_large %s (%s)' % (number, logic) not in documents[ABOUT]:
        yield "%s has not version %s with its logic" % (ABOUT, number)
    for name, text in documents.items():
        yield from ("%s names logic %s" % (name, one) for one in LOGIC.findall(text) if "logic " + one != logic)


def main():
    paths = [*TOP.glob("*.md"), *(TOP / "docs").glob("*.md"), TOP / ABOUT]
    read = {path: path.read_text(encoding="utf-8") for path in paths}
    documents = {str(path.relative_to(TOP)): text for path, text in sorted(read.items())}
    version, *texts = ((TOP / name).read_text(encoding="utf-8") for name in ("VERSION", *OF_PACKAGES))
    wrong = list(faults(version, documents["CHANGELOG.md"], dict(zip(OF_PACKAGES, texts)), documents))
    print(*wrong, "%d wrong" % len(wrong), sep="\n")
    return 1 if wrong else 0


if __name__ == "__main__":
    sys.exit(main())
