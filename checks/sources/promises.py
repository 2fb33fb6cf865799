#!/usr/bin/env python3
"""Prints what the public functions of crates promise: the comment of each, and the names of its clauses.

    checks/sources/promises.py [--private] [CRATE ..]    of these crates, or of all
With `--private` those of private functions with clauses follow.
A law is a function of a module `laws`; its clauses are what it says.
"""
import pathlib
import re
import sys

from clauses import BODY, CLAUSE

TOP = pathlib.Path(__file__).resolve().parents[2]
FUNCTION = re.compile(r"(?m)^((?: *///.*\n)*)((?: *#\[.*\n)*) *(pub )?"
                      r"(?:pub\([a-z]+\) )?(?:const )?(?:extern \S+ )?fn (\w+)")
OWNER = re.compile(r"(?m)^impl(?:<[^{]*?>)? (?:\w+ for )?(\w+)")


def owner(source, at):
    """The type whose impl a place stands in, or nothing."""
    if not source[at:].lstrip("\n").startswith(" "):
        return ""
    found = [match[1] for match in OWNER.finditer(source, 0, at)]
    return found[-1] + "::" if found else ""


def promises(source, private=False):
    """For each public function its name, its comment on one line, and the names of its clauses; or for private ones."""
    for found in FUNCTION.finditer(source):
        if bool(found[3]) == private:
            continue
        rest = source[found.end():]
        end = BODY.search(rest)
        said = " ".join(line.strip().removeprefix("///").strip() for line in found[1].splitlines())
        yield owner(source, found.start()) + found[4], said, CLAUSE.findall(rest[:end.start()] if end else rest)


def modules(crate):
    """The files of a crate with public functions, tests left out, each as its module's path and its text."""
    folder = TOP / "crates" / crate / "src"
    for path in sorted(folder.rglob("*.rt")):
        parts = path.relative_to(folder).with_suffix("").parts
        if path.name not in ("main.rt", "BUILD.rt") and not any("test" in part for part in parts):
            yield "::".join((crate, *parts)).removesuffix("::lib"), path.read_text(encoding="utf-8")


def crates():
    lines = (TOP / "crates.txt").read_text(encoding="utf-8").splitlines()
    return [line.split()[0].rstrip(":") for line in lines if line.strip()]


def lines_of(crate, private):
    for module, source in modules(crate):
        for name, said, clauses in promises(source, private):
            if private and not clauses:
                continue
            yield "- `%s::%s`: %s%s" % (module, name, said, " (%s)" % ", ".join("`%s`" % one for one in clauses)
                                        if clauses else "")


def main(words):
    private = words[:1] == ["--private"]
    words = words[private:]
    unknown = [word for word in words if word not in crates()]
    if unknown:
        sys.exit("promises.py: no crate %s in crates.txt" % ", ".join(unknown))
    for crate in words or crates():
        listed = list(lines_of(crate, False)) + (list(lines_of(crate, True)) if private else [])
        if listed:
            print("## `%s`\n" % crate, *listed, "", sep="\n")
    return 0


if __name__ == "__main__":
    sys.exit(main(sys.argv[1:]))
