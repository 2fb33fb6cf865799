#!/usr/bin/env python3
"""Prints the Python files of tools, checks, bench and examples that changes concern: of the names of changed files on
standard input those that are Python, and all that import one of these, or a file that does.

    git diff --name-only | checks/sources/reached.py
A module is looked for as `imports.py` does, and else under its name in any folder, since scripts add folders to
`sys.path`. A text that is the name or path of a file or module, or a pattern that a file matches as `*.json`, counts as
an import of it. A changed file that is no Python concerns the Python around it too.
"""
import ast
import fnmatch
import re
import sys
from collections import defaultdict
from pathlib import Path

from imports import file_of, named
from style import TOP, files

ENDING = re.compile(r"\*[^*]*\.(?!py$)\w+$")  # of a pattern: that of all Python is another check's


class Known:
    """The Python files that there are and the changed files, by the ends of their paths."""

    def __init__(self, python, changed):
        self.python = set(python)
        self.changed = set(changed)
        self.by_name = defaultdict(set)
        for path in self.python | self.changed:
            self.by_name[path.name].add(path)

    def module(self, name, path):
        """The files that an import of this name may mean in the file `path`, with those of their packages."""
        beside = file_of(name, path, self.python)
        end = "/" + name.replace(".", "/") + ".py"
        found = {beside} if beside else {one for one in self.by_name[Path(end).name] if str(one).endswith(end)}
        return found | {folder / "__init__.py" for one in found for folder in one.parents} & self.python

    def named_by(self, text, path):
        """The files that a text names."""
        name = text.rsplit("/", 1)[-1]
        if ENDING.search(name):
            return {one for one in self.changed if fnmatch.fnmatchcase(one.name, name)}
        if "." in text and text.replace(".", "").isidentifier():
            return self.module(text, path) | self.by_name.get(name, set())
        return self.by_name.get(name, set())


def texts(tree):
    """Those of one word."""
    for node in ast.walk(tree):
        if isinstance(node, ast.Constant) and isinstance(node.value, str) and len(node.value.split()) == 1:
            yield node.value


def leads_to(path, source, known):
    """The files that a module imports or names."""
    tree, found = ast.parse(source), set()
    for names in named(tree):
        found |= next(filter(None, (known.module(name, path) for name in names)), set())
    for text in texts(tree):
        found |= known.named_by(text, path)
    return found - {path}


def around(path, python):
    """The Python in the folder of a file, or else in the one above, with the tests there."""
    for folder in path.parents[:2]:
        near = {one for one in python if one.parent in (folder, folder / "tests")}
        if near:
            return near
    return set()


def reached(sources, changed):
    """Those of the files, given with their sources, that changed files concern."""
    known, importers = Known(sources, changed), defaultdict(set)
    for path, source in sources.items():
        for one in leads_to(path, source, known):
            importers[one].add(path)
    found, left = set(), set(changed).union(*(around(one, sources) for one in changed if one not in sources))
    while left:
        found |= left
        left = set().union(*(importers[one] for one in left)) - found
    return found & set(sources)


def main():
    sources = {path: path.read_text(encoding="utf-8") for path in files()}
    changed = {TOP / line for line in sys.stdin.read().splitlines() if line}
    for path in sorted(reached(sources, changed)):
        print(path.relative_to(TOP))


if __name__ == "__main__":
    main()
