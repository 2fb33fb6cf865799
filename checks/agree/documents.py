#!/usr/bin/env python3
"""Runs the commands that the documents show, and compares what they print. Build spanprof first, or
let SPANPROF name it.

    checks/agree/documents.py [PROGRAM] [--write]     --write puts what they print into the documents
A command is a line that begins with `$ ` in a block of README.md, docs/ or examples/; what follows is what it prints.
Commands that record a run, read a recording that is not kept in examples/openmp/recorded, or write a page are left out,
and so is spanprof-path where spanprof_large is not found.
"""
import os
import re
import shutil
import subprocess
import sys
import tempfile

TOP = os.path.dirname(os.path.dirname(os.path.dirname(os.path.abspath(__file__))))
RECORDED = os.path.join(TOP, "examples", "openmp", "recorded")


def documents():
    yield os.path.join(TOP, "README.md")
    for folder in ("docs", "examples"):
        names = os.listdir(os.path.join(TOP, folder))
        yield from sorted(os.path.join(TOP, folder, name) for name in names if name.endswith(".md"))


def commands(path):
    """Pairs of a command and what the document says it prints."""
    with open(path, encoding="utf-8") as file:
        blocks = re.findall(r"(?ms)^```\n(.*?)^```", file.read())
    for block in blocks:
        for part in re.split(r"(?m)^\$ ", block)[1:]:
            yield part.partition("\n")[::2]


def can_run(command, folder):
    if re.match(r"(make|export|mkdir|for|clang|gcc|spanprof-record|spanprof-report|[A-Z_]+=)", command):
        return False
    words = re.split(r"[\s|]+", command.partition("-T")[0])
    texts = [word for word in words if word.endswith((".tasks", ".replay"))]
    return all(os.path.exists(os.path.join(folder, text)) for text in texts)


def make_folder(program):
    """A folder in which the commands find the program, the tools and the recorded texts."""
    folder = tempfile.mkdtemp()
    for name in ("tools", "examples"):
        os.symlink(os.path.join(TOP, name), os.path.join(folder, name))
    os.mkdir(os.path.join(folder, "bin"))
    os.symlink(program, os.path.join(folder, "bin", "spanprof"))
    for name in os.listdir(RECORDED):
        shutil.copy(os.path.join(RECORDED, name), folder)
    return folder


def replaced(text, command, expected, printed):
    """The document with what the command prints now in the place of what it says."""
    shown = "\n$ %s\n" % command
    return text.replace(shown + expected, shown + printed, 1)


def put(path, command, expected, printed):
    with open(path, encoding="utf-8") as file:
        text = file.read()
    with open(path, "w", encoding="utf-8") as file:
        file.write(replaced(text, command, expected, printed))


def main():
    words = [word for word in sys.argv[1:] if word != "--write"]
    built = os.environ.get("SPANPROF") or TOP + "/crates/spanprof/out/spanprof"
    program = os.path.abspath(words[0] if words else built)
    if not os.access(program, os.X_OK):
        sys.exit("no program " + program)
    folder = make_folder(program)
    path = os.pathsep.join([os.path.join(folder, "bin"), os.path.join(TOP, "tools"), os.environ["PATH"]])
    environment = dict(os.environ, SPANPROF=program, PATH=path, SPANPROF_MACHINE=os.path.join(folder, "none"))
    wrong = 0
    for document in documents():
        for command, expected in commands(document):
            if not can_run(command, folder):
                print("left out:", command)
                continue
            done = subprocess.run(["bash", "-c", command], cwd=folder, env=environment, capture_output=True, text=True)
            printed = done.stdout + done.stderr
            if re.search("spanprof_large, which .*, is not found", done.stderr):
                print("left out:", command)
            elif printed != expected and done.returncode == 0 and "--write" in sys.argv:
                put(document, command, expected, printed)
                print("written:", command)
            elif printed != expected:
                wrong += 1
                print("%s: %s\nprints\n%s" % (os.path.relpath(document, TOP), command, printed))
            else:
                print("right:", command)
    shutil.rmtree(folder)
    print("%d wrong" % wrong)
    sys.exit(wrong > 0)


if __name__ == "__main__":
    main()
