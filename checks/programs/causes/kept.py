#!/usr/bin/env python3
"""Diagnoses the recordings of kept.tar.xz anew, which are of programs with a known cause: kind, place, change and gain
have to be those of kept.txt. Nothing is measured.

    kept.py                                 compares
    kept.py --anew                          writes kept.txt
    kept.py --anew FOLDER ..                and keeps the small ones of these recordings too, first

A FOLDER is one that run.py left with --keep: its name begins with the compiler's, and ends with `other` where its
programs are of that folder.
"""
import io
import os
import shutil
import subprocess
import sys
import tarfile
import tempfile

from judging import answer_of, is_there
from programs import KINDS, kind_of, program
from run import HERE, diagnosed_again

ARCHIVE, ANSWERS = (os.path.join(HERE, "kept." + ending) for ending in ("tar.xz", "txt"))
SMALL = 300000      # bytes of a recording without its log


def sources_of(folder):
    return os.path.join(HERE, "other") if folder.endswith("other") else HERE


def is_kept(member):
    return None if os.path.basename(member.name) == "log" else member


def packed(path, name):
    """An archive of a recording without its log."""
    out = io.BytesIO()
    with tarfile.open(fileobj=out, mode="w") as archive:
        archive.add(path, name, filter=is_kept)
    return out.getvalue()


def unpack(folder):
    with tarfile.open(ARCHIVE) as archive:
        archive.extractall(folder)


def keep(folders):
    """Adds their recordings to those that are kept, in place of those of the same names."""
    with tempfile.TemporaryDirectory() as scratch:
        unpack(scratch)
        for folder in folders:
            for name in sorted(filter(lambda name: name.endswith(".spanprof"), os.listdir(folder))):
                found = packed(os.path.join(folder, name), name)
                if len(found) > SMALL:
                    print("not kept: %s has %d bytes, more than %d" % (name, len(found), SMALL))
                    continue
                out = os.path.join(scratch, os.path.basename(os.path.abspath(folder)))
                shutil.rmtree(os.path.join(out, name), ignore_errors=True)
                with tarfile.open(fileobj=io.BytesIO(found)) as archive:
                    archive.extractall(out)
        words = ["tar", "-C", scratch, "--sort=name", "--mtime=@0", "--owner=0", "--group=0", "-cJf", ARCHIVE, "."]
        subprocess.run(words, check=True)


def of_source(folder, name):
    """The program of a recording."""
    base = os.path.join(sources_of(folder), name)
    return program(next(base + ending for ending in (".c", ".cpp") if os.path.exists(base + ending)))


def row(folder, path):
    one = of_source(os.path.basename(folder), os.path.splitext(os.path.basename(path))[0])
    reported = diagnosed_again(path, one).json()
    answer, change = answer_of(reported), (reported["diagnosis"] or [{}])[0].get("change") or {"what": "-"}
    is_right = answer.kind == one.kind and is_there(one, answer)
    place = "%s:%s" % (answer.file, "-".join(map(str, answer.lines))) if answer.file else "-"
    gain = "%.1f %%" % answer.gain if answer.gain is not None else "-"
    verdict = "ok" if is_right else "WRONG"
    return "%-6s %-12s %-17s %-17s %s, %s, %s" % (
        verdict, os.path.basename(folder), one.name, answer.kind, place, change["what"], gain)


def rows():
    with tempfile.TemporaryDirectory() as scratch:
        unpack(scratch)
        for folder in sorted(os.listdir(scratch)):
            names = os.listdir(os.path.join(scratch, folder))
            for name in sorted(names, key=lambda name: (KINDS.index(kind_of(os.path.splitext(name)[0])), name)):
                yield row(os.path.join(scratch, folder), os.path.join(scratch, folder, name))


def compare(found):
    with open(ANSWERS, encoding="utf-8") as file:
        known = file.read().splitlines()
    for sign, some, others in (("-", known, found), ("+", found, known)):
        for line in some:
            if line not in others:
                print(sign, line)
    print("%d recordings diagnosed, %d of them wrong" % (len(found), sum(line.startswith("WRONG") for line in found)))
    return known == found


def main(words):
    if words[:1] == ["--anew"]:
        if words[1:]:
            keep(words[1:])
        with open(ANSWERS, "w", encoding="utf-8") as file:
            file.writelines(line + "\n" for line in rows())
    elif not compare(list(rows())):
        sys.exit("the diagnosis says something else: if that is better, kept.py --anew")


if __name__ == "__main__":
    main(sys.argv[1:])
