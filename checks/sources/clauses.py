#!/usr/bin/env python3
"""Finds names in docs/PROVED.md that no clause and no law has, and crates that neither it nor README.md names.

    checks/sources/clauses.py
After a function with its path, as in `span_cert::check` (`accepted`), the names in parentheses are those of its
clauses. Other names in parentheses are those of clauses, functions or modules of the crates whose section it is, or of
any crate outside the sections. Names after `law` or `laws` are those of functions in a module `laws`.
"""
import pathlib
import re
import sys

TOP = pathlib.Path(__file__).resolve().parents[2]
LIST = r"`[\w:]+`(?:(?:, | and )`[\w:]+`)*"
OF_FUNCTION = re.compile(r"`((?:\w+::)+\w+)` \((" + LIST + r")\)")
IN_PARENTHESES = re.compile(r"\((?:clauses? )?(" + LIST + r")")
LAWS = re.compile(r"\blaws?:? (" + LIST + ")")
NAME = re.compile(r"`(?:\w+::)*([a-z]\w*)`")
PART = re.compile(r"\n\n(?=\*\*`|## )")
HEAD = re.compile(r"(?:\*\*`[^*]*\*\*(?: and )?)*")
FUNCTION = re.compile(r"\bfn (\w+)")
CLAUSE = re.compile(r"\b(?:ensures|requires)\*? (\w+) *\{")
BODY = re.compile(r"\n\s*\{|\bfn \w+")


class Crate:
    """What a crate has: pairs of a function and a clause, the functions, the modules, and the laws."""

    def __init__(self, sources):
        """Of pairs of a file's path below src/ and its text."""
        self.clauses, self.functions, self.modules, self.laws = set(), set(), set(), set()
        for path, source in sources:
            functions = set(FUNCTION.findall(source))
            self.functions |= functions
            self.modules.add(path.removesuffix(".rt").split("/")[-1])
            if path.startswith("laws"):
                self.laws |= functions
            for found in FUNCTION.finditer(source):
                rest = source[found.end():]
                end = BODY.search(rest)
                signature = rest[:end.start()] if end else rest
                self.clauses |= {(found.group(1), clause) for clause in CLAUSE.findall(signature)}

    def has(self, name):
        return name in self.functions or name in self.modules or any(name == clause for _, clause in self.clauses)


def wrong_of_functions(text, crates):
    for path, names in OF_FUNCTION.findall(text):
        first, *_, function = path.split("::")
        asked = [crates[first]] if first in crates else crates.values()
        for name in NAME.findall(names):
            if not any((function, name) in crate.clauses for crate in asked):
                yield "%s has no clause %s" % (path, name)


def wrong_in_part(text, crates, where):
    for names in IN_PARENTHESES.findall(OF_FUNCTION.sub("", text)):
        for name in NAME.findall(names):
            if not any(crate.has(name) for crate in crates.values()):
                yield "%s: no clause, function or module %s" % (where, name)
    for names in LAWS.findall(text):
        for name in NAME.findall(names):
            if not any(name in crate.laws for crate in crates.values()):
                yield "%s: no law %s" % (where, name)


def faults(page, crates):
    """What is wrong with a page, part by part: a crate's section has the names of its crates."""
    for part in PART.split(page):
        text = re.sub(r"\s+", " ", part)
        head = HEAD.match(text).group()
        own = {name: crates[name] for name in NAME.findall(head) if name in crates}
        yield from wrong_of_functions(text, crates)
        yield from wrong_in_part(text, own or crates, ", ".join(own) or "outside the sections")


def unnamed(crates, pages):
    """A line for each crate of which no page says what is proved."""
    named = set(re.findall(r"\w+", " ".join(pages)))
    return ["%s is in neither README.md nor docs/PROVED.md" % crate for crate in sorted(crates) if crate not in named]


def main():
    crates = {}
    for folder in (TOP / "crates").iterdir():
        files = (folder / "src").rglob("*.rt")
        crates[folder.name] = Crate((str(path.relative_to(folder / "src")), path.read_text()) for path in files)
    proved = (TOP / "docs" / "PROVED.md").read_text()
    wrong = [*faults(proved, crates), *unnamed(crates, [proved, (TOP / "README.md").read_text()])]
    for line in wrong:
        print(line)
    print("%d wrong" % len(wrong))
    sys.exit(bool(wrong))


if __name__ == "__main__":
    main()
