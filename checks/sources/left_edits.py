#!/usr/bin/env python3
"""Looks whether each edit of the gate and of checks/edits can still be applied: every old text occurs exactly once in
its file.

    left_edits.py [TOP]      the top of the repository, if it is another

Whether the prover refuses the edits is asked by the gate, and by checks/edits.sh.
"""
import sys
from pathlib import Path


def changes(text):
    """The file, the old and the new text of each change of an edit."""
    file = old = ""
    for line in text.splitlines():
        key, _, rest = line.partition(":")
        rest = rest.removeprefix(" ")
        if key == "file":
            file = rest
        elif key == "old":
            old = rest
        elif key == "new":
            yield file, old, rest


def faults(crate, edit):
    """What is wrong with an edit of the crate in this folder. Its changes are made one after another."""
    found, texts = list(changes(edit.read_text())), {}
    if not found:
        yield "it changes nothing"
    for file, old, new in found:
        path = crate / file
        if file not in texts and not path.is_file():
            yield "there is no file %s" % file
            continue
        text = texts.setdefault(file, path.read_text())
        if old == new:
            yield "a new text is the old one"
        elif text.count(old) != 1:
            yield "an old text is not in %s exactly once: %s" % (file, old)
        texts[file] = text.replace(old, new)


def edits_of(top):
    """Each edit, and the folder of the crate that it changes: those beside the gate, and those of the gate."""
    for edit in sorted(top.glob("checks/edits/*/*.edit")):
        yield edit, top / "crates" / edit.parent.name
    for edit in sorted(top.glob("crates/*/must-fail/*.edit")):
        yield edit, edit.parents[1]


def main(top):
    edits = list(edits_of(top))
    reported = ["%s: %s" % (edit.relative_to(top), why) for edit, crate in edits for why in faults(crate, edit)]
    print("\n".join([*reported, "%d edits, %d faults" % (len(edits), len(reported))]))
    return 1 if reported or not edits else 0


if __name__ == "__main__":
    sys.exit(main(Path(sys.argv[1] if len(sys.argv) > 1 else Path(__file__).resolve().parents[2])))
