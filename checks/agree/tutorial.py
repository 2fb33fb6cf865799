#!/usr/bin/env python3
"""Tries docs/TUNING.md letter by letter: all its commands, one after the other, in a fresh clone.

    checks/agree/tutorial.py [PROGRAM [LARGE]]
A clone of what is committed, with programs that are built already; gcc is needed. The page shows what commands print of
kept texts, and nothing that is measured, so each number is compared; who answers may be another than a proved program.
The clone must be as git left it afterwards, but for what git ignores.
"""
import os
import re
import shutil
import subprocess
import sys
import tempfile

sys.dont_write_bytecode = True

from documents import TOP, commands

MARK = "=== ended with"
PROGRAMS = ("spanprof", "spanprof_large")
DOCUMENT = os.path.join("docs", "TUNING.md")


def fresh_clone(programs):
    """With the built programs where their crates leave them."""
    folder = os.path.join(tempfile.mkdtemp(), "spanprof")
    subprocess.run(["git", "clone", "--quiet", TOP, folder], check=True)
    for name, program in programs.items():
        os.makedirs(os.path.join(folder, "crates", name, "out"))
        shutil.copy(program, os.path.join(folder, "crates", name, "out", name))
    return folder


def named_programs(words):
    """The paths of the programs by their names."""
    paths = [os.path.join(TOP, "crates", name, "out", name) for name in PROGRAMS]
    paths[:len(words)] = map(os.path.abspath, words)
    return dict(zip(PROGRAMS, paths))


def run_all(pairs, folder):
    """What each command printed on both streams, and its status. One shell runs them all."""
    script = "".join("%s\nprintf '\\n%s %%d\\n' $?\n" % (command, MARK) for command, _ in pairs)
    environment = {name: value for name, value in os.environ.items() if not name.startswith(("SPANPROF", "OMP_"))}
    done = subprocess.run(["bash", "-c", script], cwd=folder, env=environment, stdin=subprocess.DEVNULL, text=True,
                          stdout=subprocess.PIPE, stderr=subprocess.STDOUT, check=False)
    parts = re.split(r"\n%s (\d+)\n" % MARK, done.stdout)
    return list(zip(parts[0::2], map(int, parts[1::2])))


def without_claims(text):
    """The lines but for what says whether the program that answers is a proved one."""
    return [line for line in text.rstrip("\n").split("\n") if not line.startswith(("proved of ", "computed by "))]


def fault(expected, printed, status):
    """What is wrong with a command's end. What a command prints of which the page shows nothing may be anything."""
    if status:
        return "ends with %d:\n%s" % (status, printed)
    if expected and without_claims(expected) != without_claims(printed):
        return "prints\n%s" % printed
    return ""


def left_behind(folder):
    done = subprocess.run(["git", "status", "--short"], cwd=folder, capture_output=True, text=True, check=True)
    return done.stdout.strip()


def main():
    programs = named_programs(sys.argv[1:])
    for program in programs.values():
        if not os.access(program, os.X_OK):
            sys.exit("no program " + program)
    if not shutil.which("gcc"):
        print("skipped: gcc is missing")
        return
    folder = fresh_clone(programs)
    pairs, wrong = list(commands(os.path.join(folder, DOCUMENT))), 0
    ends = run_all(pairs, folder)
    for (command, expected), (printed, status) in zip(pairs, ends):
        reported = fault(expected, printed, status)
        wrong += bool(reported)
        print("%s: %s\n%s" % (DOCUMENT, command, reported) if reported else "right: " + command)
    if len(ends) != len(pairs) or left_behind(folder):
        wrong += 1
        print("%d of %d commands ended; git finds %s" % (len(ends), len(pairs), left_behind(folder) or "nothing"))
    shutil.rmtree(os.path.dirname(folder))
    print("%d wrong" % wrong)
    sys.exit(wrong > 0)


if __name__ == "__main__":
    main()
