#!/usr/bin/env python3
"""Makes mutants of a task runtime by operators over its lines, as patches for build.py: operators.py gomp TREE FOLDER

TREE has the runtime's source, as `build.py --tree` leaves it. FOLDER gets patches that a seed chooses: a statement is
dropped, or moved over the next one that locks or posts, a constant or comparison changed, or a condition negated. Code
for devices, tools and debugging is left out. Whether a mutant breaks a rule is for people to find out.
"""
import argparse
import collections
import difflib
import pathlib
import random
import re
import sys

FILES = {
    "gomp": [f"libgomp/{name}.c" for name in ("task", "taskloop", "team", "config/linux/bar", "priority_queue")],
    "kmp": [f"openmp/runtime/src/kmp_{name}.cpp" for name in ("tasking", "taskdeps", "barrier")]}
LEFT_OUT = re.compile(r"target|device|acc_|pause|omp_get|initialize_team|free_pool|attr|ompt|itt_|_tdg|_record|"
                      r"successors|hidden_helper|_dist|computeVars|^init$|^resize$|hierarch|_node_id", re.I)
NO_CHANGE = re.compile(r"\b(K[A-Z]_TRACE|KMP_(DEBUG_)?ASSERT\w*|KMP_(COUNT|TIME|SET|PUSH|POP|START|FSYNC)_\w+|KMP_MB|"
                       r"KMP_YIELD\w*|ANNOTATE\w*|__itt\w*|\w*ompt_\w*|TSAN\w*|assert|gomp_fatal|gomp_debug)\b")
UNREAD = re.compile(r'"(?:\\.|[^"\\\n])*"|/\*.*?\*/|//[^\n]*', re.S)
FUNCTION = re.compile(r"(?=[A-Za-z_])[^;={}#]*?\b(\w+) ?\(")
LONGEST = 4     # lines of a statement or condition
# Declarations, and what leads elsewhere.
NO_STATEMENT = re.compile(r"\s*(return|break|continue|goto|struct|int|unsigned|bool|void|size_t|const|static|char|long|"
                          r"enum|case|default|do|else|for|while|if|switch|extern|typedef|U?TYPE|uintptr_t|volatile|"
                          r"gomp_\w+_t|kmp_\w+|std::\w+)\b")
AFTER = re.compile(r"[;{}:)]\s*$|\b(else|do)\s*$|^#")
AFTER_WHOLE = re.compile(r"[;{}]\s*$")   # where a statement ends, or a block begins
CONSTANT = re.compile(r"(?<![\w.])(true|false|TRUE|FALSE|\d+)(?![\w.])")
COMPARISON = re.compile(r"(?<= )(<=|>=|==|!=|<|>|&&|\|\|)(?= |$)")
OTHER = {"true": "false", "false": "true", "TRUE": "FALSE", "FALSE": "TRUE", "0": "1", "1": "0",
         "<": "<=", "<=": "<", ">": ">=", ">=": ">", "==": "!=", "!=": "==", "&&": "||", "||": "&&"}
CONDITION = re.compile(r"\s*(?:\} )?(?:else )?if \(")
LOCK = re.compile(r"gomp_mutex_(un)?lock|gomp_sem_|atomic_|ATOMIC|_lock\(|_release")


# Lines from a number on become others.
Change = collections.namedtuple("Change", "operator number old new function")


def readable(text):
    """The lines of a text, with blanks for its comments and strings."""
    return UNREAD.sub(lambda found: re.sub(r"[^\n]", " ", found[0]), text).split("\n")


def functions_of(code):
    """For each line the function that it stands in."""
    name = ""
    for line in code:
        found = FUNCTION.match(line)
        name = found[1] if found and not line.rstrip().endswith(";") else name
        yield name


def length_at(code, i, beginning=AFTER):
    """How many lines the statement has that begins in a line: 0 where none does, after a line that ends so."""
    before = next((line for line in reversed(code[:i]) if line.strip()), "")
    if not re.match(r"\s+[\w*(+-]", code[i]) or NO_STATEMENT.match(code[i]) or not beginning.search(before):
        return 0
    for count in range(1, LONGEST + 1):
        text = " ".join(code[i:i + count]).rstrip()
        if text.endswith(";"):
            return count if text.count("(") == text.count(")") and not re.search("[#{}]", text) else 0
    return 0


def negated(lines, code, i):
    """The lines of an `if` with its condition negated, or none."""
    begin = CONDITION.match(code[i])
    depth, new = 0, list(lines[i:i + LONGEST])
    for number, line in enumerate(code[i:i + LONGEST] if begin else ()):
        for at in range(0 if number else begin.end() - 1, len(line)):
            depth += (line[at] == "(") - (line[at] == ")")
            if line[at] == ")" and not depth:
                new[number] = new[number][:at] + "))" + new[number][at + 1:]
                new[0] = new[0][:begin.end()] + "!(" + new[0][begin.end():]
                return new[:number + 1]
    return []


def replaced(lines, code, i):
    """Pairs of an operator and a line with one constant or comparison changed."""
    for operator, pattern in (("constant", CONSTANT), ("compare", COMPARISON)):
        for found in pattern.finditer("" if re.match(r"\s*case\b", code[i]) else code[i]):
            new = OTHER.get(found[1]) or str(int(found[1]) + 1)
            yield operator, lines[i][:found.start()] + new + lines[i][found.end():]


def changes_at(lines, code, i, function):
    """What the operators make of a line."""
    length = length_at(code, i)
    after = length_at(code, i + length) if length_at(code, i, AFTER_WHOLE) else 0
    statement, then = tuple(lines[i:i + length]), tuple(lines[i + length:i + length + after])
    if length:
        blank = ("",) * (length - 1)
        yield Change("drop", i, statement, (re.match(r"\s*", lines[i])[0] + ";", *blank), function)
    if then and LOCK.search(" ".join(then)) and not LOCK.search(" ".join(statement)):
        yield Change("move", i, statement + then, then + statement, function)
    condition = negated(lines, code, i)
    if condition:
        yield Change("negate", i, tuple(lines[i:i + len(condition)]), tuple(condition), function)
    for operator, new in replaced(lines, code, i):
        yield Change(operator, i, (lines[i],), (new,), function)


def changes_of(text):
    """All changes of a source, without those that no program can see."""
    lines, code = text.split("\n"), readable(text)
    found = (change for i, function in enumerate(functions_of(code))
             if code[i][:1].isspace() and function and not LEFT_OUT.search(function)
             for change in changes_at(lines, code, i, function))
    return (change for change in found if not NO_CHANGE.search(" ".join(change.old)))


def patch_of(name, lines, change):
    """The text of a patch, with the head that patches.py reads."""
    changed = [*lines[:change.number], *change.new, *lines[change.number + len(change.old):]]
    diff = difflib.unified_diff(lines, changed, f"a/{name}", f"b/{name}", lineterm="")
    what = " ".join(" ".join(change.old).split())
    return "\n".join([f"Description: {change.operator} at {pathlib.Path(name).name}:{change.number + 1}: {what}"[:120],
                      "Rule: any", "Breaks: yes", "", *diff, ""])


def main(words=None):
    parser = argparse.ArgumentParser(description=__doc__.split("\n", maxsplit=1)[0])
    parser.add_argument("family", choices=FILES)
    parser.add_argument("tree", type=pathlib.Path)
    parser.add_argument("folder", type=pathlib.Path)
    parser.add_argument("--seed", type=int, default=1)
    parser.add_argument("--count", type=int, default=25)
    options = parser.parse_args(words)
    sources = {name: (options.tree / name).read_text(encoding="latin-1") for name in FILES[options.family]}
    changes = [(name, change) for name, text in sources.items() for change in changes_of(text)]
    random.Random(options.seed).shuffle(changes)
    options.folder.mkdir(parents=True, exist_ok=True)
    for number, (name, change) in enumerate(changes[:options.count]):
        path = options.folder / f"{number:03}-{change.function}-{change.operator}.patch"
        path.write_text(patch_of(name, sources[name].split("\n"), change), encoding="latin-1")
    return 0


if __name__ == "__main__":
    sys.exit(main())
