#!/usr/bin/env python3
"""Looks at the Python of tools, checks, bench and examples: lines of at most 120 columns, functions under 40 lines.

    checks/sources/style.py [FILE ..]
Lines inside texts of several lines may be longer, since some hold what a program prints.
"""
import ast
import io
import pathlib
import sys
import tokenize

TOP = pathlib.Path(__file__).resolve().parents[2]
FOLDERS = ("tools", "checks", "bench", "examples")
MOST_COLUMNS, MOST_LINES = 120, 39


def docstrings(tree):
    """The lines of comments that are texts."""
    for node in ast.walk(tree):
        if isinstance(node, (ast.Module, ast.ClassDef, ast.FunctionDef)) and ast.get_docstring(node):
            yield from range(node.body[0].lineno, node.body[0].end_lineno + 1)


def inside_texts(source):
    """The lines of texts of several lines."""
    for token in tokenize.generate_tokens(io.StringIO(source).readline):
        if token.type == tokenize.STRING and token.start[0] < token.end[0]:
            yield from range(token.start[0], token.end[0] + 1)


def faults(source):
    """Pairs of a line's number and what is wrong there."""
    tree = ast.parse(source)
    long = {number: len(line) for number, line in enumerate(source.split("\n"), 1) if len(line) > MOST_COLUMNS}
    texts = set(inside_texts(source)).difference(docstrings(tree)) if long else ()
    yield from ((number, "%d columns" % length) for number, length in long.items() if number not in texts)
    for node in ast.walk(tree):
        if isinstance(node, ast.FunctionDef) and node.end_lineno - node.lineno + 1 > MOST_LINES:
            yield node.lineno, "%s has %d lines" % (node.name, node.end_lineno - node.lineno + 1)


def files():
    for folder in FOLDERS:
        for path in sorted((TOP / folder).rglob("*")):
            is_script = path.parent == TOP / "tools" and path.name.startswith("spanprof-")
            if path.suffix == ".py" or is_script:
                yield path


def main():
    wrong = 0
    for path in [pathlib.Path(word).resolve() for word in sys.argv[1:]] or files():
        for number, words in sorted(faults(path.read_text(encoding="utf-8"))):
            wrong += 1
            print("%s:%d: %s" % (path.relative_to(TOP) if TOP in path.parents else path, number, words))
    print("%d wrong" % wrong)
    return 1 if wrong else 0


if __name__ == "__main__":
    sys.exit(main())
