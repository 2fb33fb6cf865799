#!/usr/bin/env python3
"""Compares what gcc's runtime exports with the recorder's table, tools/openmp_recorder/recorder/gomp/exports.txt.

exports.py [LIBRARY ..]: that of gcc, or these. Each function has one line of the table, by the longest pattern that
fits; those that are recorded are the ones that librecorder.so has. Status 1: a function is new, or one is not recorded,
or the recorder shows functions of C++ to the program, or loads libraries for itself.
"""
import fnmatch
import os
import re
import subprocess
import sys

TOP = os.path.dirname(os.path.dirname(os.path.dirname(os.path.abspath(__file__))))
RECORDER = os.path.join(TOP, "tools", "openmp_recorder")
KINDS = ("recorded", "nothing", "unseen")
LOADED = ("libc.so", "libdl.so", "libpthread.so", "libgcc_s.so", "ld-linux")


def lines_of(table):
    """Pairs of a pattern and what is done."""
    words = (line.split(" ", 1) for line in table.splitlines() if line and not line.startswith("#"))
    return [(pattern, kind.split(":")[0]) for pattern, kind in words]


def kind_of(name, lines):
    """That of the pattern that is longest: it says the most."""
    found = max((line for line in lines if fnmatch.fnmatchcase(name, line[0])), key=lambda line: len(line[0]),
                default=(None, None))
    return found[1]


def faults(exported, recorded, lines):
    for pattern, kind in lines:
        if kind not in KINDS:
            yield "%s: no kind %s" % (pattern, kind)
    for name in sorted(exported):
        kind = kind_of(name, lines)
        if not kind:
            yield "%s is new: no line of the table has it" % name
        elif (kind == "recorded") != (name in recorded):
            yield "%s: the table says %s, and the recorder %s" % (
                name, kind, "has it" if name in recorded else "lacks it")


def own_faults(exported, loaded):
    """What a program would meet that it does not bring along."""
    for name in sorted(name for name in exported if name.startswith("_Z")):
        yield "the recorder exports %s" % name
    for name in sorted(name for name in loaded if not name.startswith(LOADED)):
        yield "the recorder loads %s" % name


def loaded_by(library):
    listed = subprocess.run(["readelf", "-d", library], capture_output=True, text=True, check=True).stdout
    return re.findall(r"\(NEEDED\).*\[(.*)\]", listed)


def exported_by(library):
    listed = subprocess.run(["nm", "-D", "--defined-only", library], capture_output=True, text=True, check=True).stdout
    words = (line.split() for line in listed.splitlines())
    return {name.split("@")[0] for _, kind, name in words if kind != "A"}


def main(libraries):
    with open(os.path.join(RECORDER, "recorder", "gomp", "exports.txt"), encoding="utf-8") as file:
        lines = lines_of(file.read())
    recorder = os.path.join(RECORDER, "librecorder.so")
    recorded = exported_by(recorder)
    own = list(own_faults(recorded, loaded_by(recorder)))
    print(*own, sep="\n", end="\n" if own else "")
    wrong = len(own)
    for library in libraries or [subprocess.check_output(["gcc", "-print-file-name=libgomp.so.1"], text=True).strip()]:
        exported = exported_by(library)
        found = list(faults(exported, recorded, lines))
        wrong += len(found)
        counts = ", ".join("%d %s" % (sum(kind_of(name, lines) == kind for name in exported), kind) for kind in KINDS)
        print("\n".join(found + ["%s: %d functions, %s" % (library, len(exported), counts)]))
    return 1 if wrong else 0


if __name__ == "__main__":
    sys.exit(main(sys.argv[1:]))
