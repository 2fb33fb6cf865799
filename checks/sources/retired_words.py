#!/usr/bin/env python3
"""Finds retired words in what users read: documents, man pages, and the strings that the tools print, C++ too.

    checks/sources/retired_words.py [FILE ..]     all of them if none is named; status 1 where one has a retired word
Code in documents and arguments in man pages are left out: outputs and names that the specification fixes stay. The
strings of a Python file are those that read as text, so neither docstrings nor names. docs/GLOSSARY.md has the terms.
"""
import ast
import pathlib
import re
import sys

from sentences import CODE, LINK, TOP, without_code

RETIRED = [(re.compile(pattern, re.IGNORECASE), instead) for pattern, instead in (
    (r"\b(fore)?told\b|\btells\b", "reported, says, predicted"),
    (r"\bbeside\b", "besides, next to, compared with"),
    (r"(?<!error: )\bwrong words\b|\blists? of words\b|\bwords of the command line\b|\bwords behind\b", "arguments"),
    (r"\b(is|are|was|were|be) taken\b(?! from)|\btaken for\b", "accepted, used, mistaken for"),
    (r"\bwant of memory\b|\bend of memory\b", "out of memory"),
    (r"\bin a row\b", "serial, one after another"),
    (r"\baccounts?\b(?! (for|whole|%s)|%s| +where| \\-)", "time breakdown"),
    (r"\bstarved?\b", "idle"),
    (r"\bgreedy runs?\b", "greedy schedule"),
    (r"\bspeed-ups?\b", "speedup"),
    (r"(?<!# )\bremark(s|ed)?\b", "warning"),
    (r"\bthe gate\b|\ba gate\b", "CI, proof check"),
    (r"\bturns of (a|all|its) \w*loops?\b|\bloops?'s? turns\b", "iterations"),
    (r"\bwhat waits? for what\b|\bwhat has to wait for what\b", "dependences"),
    (r"\bmidst\b|\bwithout a word\b|\bfrom scratch\b", "plain words"),
    (r"\bhandled? to the outside\b", "capability"),
    (r"\bheld up\b", "blocked, delayed"),
    (r"\b(a|the|first|second|no) leads?\b", "diagnosis"),
    (r"\bfold(s|ed|ing)? (tasks|regions|texts?)\b|\b(tasks|regions|texts?) (is|are) folded\b", "coarsen"),
    (r"\bforge[ds]?\b", "tamper with"),
    (r"\bno sooner\b", "lower bound"),
    (r"\bbelieved lines\b", "definitions to read"),
    (r"\bcannot stand (here|there)\b", "unexpected"),
    (r"(?<!tasks )\bthere r[au]n\b", "the subject first"),
)]
DOCUMENTS = ("README.md", "CONTRIBUTING.md", "docs/*.md", "checks/**/README.md", "bench/README.md", "tools/README.md",
             "tools/**/README.md", "examples/**/README.md")
MACRO = re.compile(r"^\.(TH|SH|SS|TP|PP|nf|fi|RS|RE|IP|EX|EE|in|ad|hy|\\\").*$", re.M)
STRING = re.compile(r'"((?:[^"\\]|\\.)* (?:[^"\\]|\\.)* (?:[^"\\]|\\.)*)"')
FIXED = re.compile(r"^\.(B|BI|BR|IR|I|RI|RB|IB)\s.*$|\\fB.*?\\f[RP]|\\fI.*?\\f[RP]", re.M)


def of_document(text):
    """Pairs of a line's number and what a reader sees of it, without code."""
    for number, line in without_code(text):
        yield number, LINK.sub(r"\1", CODE.sub("", line))


def of_manual(text):
    """The same of a man page, without macros, and without what is bold or slanted: arguments and names."""
    is_code = False
    for number, line in enumerate(text.splitlines(), 1):
        is_code = line in (".nf", ".EX") or is_code and line not in (".fi", ".EE")
        if not is_code:
            yield number, FIXED.sub("", MACRO.sub("", line))


def docstrings(tree):
    for node in ast.walk(tree):
        if isinstance(node, (ast.Module, ast.ClassDef, ast.FunctionDef)) and ast.get_docstring(node):
            yield node.body[0].value


def of_program(source):
    """The same of the strings of a Python program that have three words or more."""
    tree = ast.parse(source)
    comments = set(map(id, docstrings(tree)))
    for node in ast.walk(tree):
        if isinstance(node, ast.Constant) and isinstance(node.value, str) and id(node) not in comments:
            if re.search(r"[a-z,:;%s] \S+ [a-z%]", node.value):
                yield node.lineno, re.sub(r"`[^`]*`", "", node.value)


def of_cpp(source):
    """The same of the strings of a C++ program, without its comments."""
    for number, line in enumerate(source.splitlines(), 1):
        yield number, " ".join(STRING.findall(re.sub(r"(^|\s)//.*", "", line)))


def lines_of(path):
    text = path.read_text(encoding="utf-8")
    read = {".md": of_document, ".py": of_program, ".cpp": of_cpp, ".hpp": of_cpp}.get(path.suffix, of_manual)
    return read(text)


def faults(lines):
    """Triples of a line's number, a retired word, and what to write instead."""
    for number, line in lines:
        for pattern, instead in RETIRED:
            yield from ((number, found.group(), instead) for found in pattern.finditer(line))


def is_program_of_users(path):
    """Whether its strings are printed: no test, and not the schema of JSON."""
    return "tests" not in path.parts


def read_by_users():
    found = {path for pattern in DOCUMENTS for path in TOP.glob(pattern) if "out" not in path.parts}
    found |= set((TOP / "tools" / "man").glob("*.[13]"))
    found |= set(filter(is_program_of_users, (TOP / "tools" / "spanprof").rglob("*.py")))
    found |= set(filter(is_program_of_users, (TOP / "tools" / "openmp_recorder").rglob("*.[ch]pp")))
    return sorted(found)


def main(names):
    wrong = 0
    for path in [pathlib.Path(name).resolve() for name in names] or read_by_users():
        for number, word, instead in faults(lines_of(path)):
            print("%s:%d: %s: %s" % (path.relative_to(TOP), number, word, instead))
            wrong += 1
    print("%d wrong" % wrong)
    return wrong > 0


if __name__ == "__main__":
    sys.exit(main(sys.argv[1:]))
