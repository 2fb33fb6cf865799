#!/usr/bin/env python3
"""Compares the model of waiting with the code that it stands for.

    checks/sources/waiting/lines.py            what does not agree; status 1 if anything does not
    checks/sources/waiting/lines.py --seen     notes the functions as they are, once the model was compared with them
A comment `FILE: CODE` of waiting.pml names a line of crates/worker_run/src/FILE, which has to be there. modelled.txt
has a line for each function that the model stands for: its file, its name, and a hash of its code without comments.
"""
import hashlib
import pathlib
import re
import sys

HERE = pathlib.Path(__file__).resolve().parent
SOURCE = HERE.parents[2] / "crates" / "worker_run" / "src"


def steps(model):
    """Pairs of a file and a line of code, one for each comment of the model that names a step."""
    return re.findall(r"/\* (\w+\.rt): (.*?) \*/", model)


def missing_steps(model, sources):
    """The steps of the model whose line is in no such file."""
    lines = {name: {line.strip() for line in text.splitlines()} for name, text in sources.items()}
    return [(name, code) for name, code in steps(model) if code not in lines.get(name, ())]


def functions(source, name):
    """The lines of each function of this name, from `fn NAME` to its semicolon or to the brace that closes it."""
    lines = source.splitlines()
    found = []
    for at, line in enumerate(lines):
        head = re.match(rf"(\s*)(pub(\(\w+\))? )?fn {name}\b", line)
        if head:
            closing = at if line.endswith((";", "{}")) else lines.index(head.group(1) + "}", at)
            found += lines[at:closing + 1]
    return found


def code_hash(lines):
    """A hash of these lines without comments and indentation."""
    code = [line.strip() for line in lines if not line.strip().startswith("//")]
    return hashlib.sha256("\n".join(code).encode()).hexdigest()[:16]


def changed_functions(noted, sources):
    """The functions of these noted lines whose code is another now, or is gone."""
    rows = [line.split() for line in noted.splitlines() if line]
    return [(name, fn) for name, fn, seen in rows if code_hash(functions(sources.get(name, ""), fn)) != seen]


def renoted(noted, sources):
    """The noted lines with the hashes of the functions as they are now."""
    rows = [line.split() for line in noted.splitlines() if line]
    return "".join(f"{name} {fn} {code_hash(functions(sources[name], fn))}\n" for name, fn, _ in rows)


def main(words):
    model = (HERE / "waiting.pml").read_text()
    noted = HERE / "modelled.txt"
    sources = {path.name: path.read_text() for path in SOURCE.glob("*.rt")}
    if words == ["--seen"]:
        noted.write_text(renoted(noted.read_text(), sources))
        return 0
    missing = missing_steps(model, sources)
    changed = changed_functions(noted.read_text(), sources)
    for name, code in missing:
        print(f"waiting.pml names a line that {name} does not have: {code}")
    for name, fn in changed:
        print(f"{name}: {fn} has changed. Compare it with waiting.pml, then run checks/sources/waiting/lines.py --seen")
    if not missing and not changed:
        print(f"{len(steps(model))} steps of the model stand for lines of the code")
    return 1 if missing or changed else 0


if __name__ == "__main__":
    sys.exit(main(sys.argv[1:]))
