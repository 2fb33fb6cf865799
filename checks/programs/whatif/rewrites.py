#!/usr/bin/env python3
"""Holds what spanprof-whatif tells of a change against the program that was really changed, and recorded.

    rewrites.py kept           the tutorial's two, by the texts that are kept in examples/openmp/recorded
    rewrites.py FOLDER         each NAME and NAME_rewritten that lies in a folder, recorded by the processor's clock
Programs that take turns with these make their code cost more. So both are recorded several times, one after the other,
and each piece of code counts by the least that it cost. The greedy ends on 4 and on 16 threads have to be those of the
rewritten program's own text to a twentieth. Where a busy machine has moved the work itself, work / end has to be, and
the row says so. Where the change says all of the rewritten program, the shape has to be the same too: tasks, waits,
depend items. The status is 0 where nothing differs.
"""
import json
import os
import subprocess
import sys
import tempfile

TOP = os.path.dirname(os.path.dirname(os.path.dirname(os.path.dirname(os.path.abspath(__file__)))))
TOOLS = os.path.join(TOP, "tools")
sys.path.insert(0, TOOLS)
sys.path.append(os.path.join(TOP, "checks", "llvm"))
sys.dont_write_bytecode = True

from comparing import ends, first_difference, largest, least, shape, without_empty_groups
from programs import PROGRAMS, TUTORIAL
from recording import RECORDER, made_texts, remove
from spanprof.whatif.requests import Text, write

WHATIF = os.path.join(TOOLS, "spanprof-whatif")
KEPT = os.path.join(TOP, "examples", "openmp", "recorded")
RUNS, TRIES = 6, 2
THREADS = (4, 16)


def output(words, **variables):
    done = subprocess.run(words, env=dict(os.environ, **variables), capture_output=True, text=True, errors="replace",
                          check=False)
    if done.returncode:
        sys.exit("%s\nended with status %d\n%s%s" % (" ".join(words), done.returncode, done.stdout, done.stderr))
    return done.stdout


def record(program, number):
    """The text of one run."""
    out = "%s_%d" % (program, number)
    remove(out)
    output([program], OMP_TOOL_LIBRARIES=RECORDER, OMP_NUM_THREADS="4", SPANPROF_OUT=out, SPANPROF_CLOCK="cpu",
           SPANPROF_QUIET="1")
    made_texts(out, {"SPANPROF_UNIT": "us", "SPANPROF_PARTS": "none"})
    return out + ".tasks"


def recorded(folder, *names):
    """Of each program a text of its runs."""
    runs = [[record(os.path.join(folder, name), number) for name in names] for number in range(RUNS)]
    for name, paths in zip(names, zip(*runs)):
        texts = [Text(path, 1) for path in paths]
        out = os.path.join(folder, name + ".tasks")
        write(out, texts[0], least([list(text.statements()) for text in texts]), [])
        yield out


def words_of(rewrite, text):
    """The options; a grain is a part of the largest piece of code at its place."""
    for option, word in rewrite.changes:
        place, _, parts = word.rpartition("=")
        if option == "grain":
            word = "%s=%d" % (place, -(-largest(Text(text, 1).statements(), place) // int(parts)))
        yield from ("--" + option, word)


def reported(rewrite, text, threads, changed):
    """What spanprof-whatif tells of the changed text, which it leaves in a file."""
    words = [WHATIF, text, *words_of(rewrite, text), "--threads", str(threads), "--json", "-o", changed]
    return json.loads(output(words))


def own(text, threads):
    """What it tells of a text as it is, by a change of no cost."""
    words = [WHATIF, text, "--factor", "the beginning=1", "--threads", str(threads), "--json"]
    return json.loads(output(words))["text"]


def faults(rewrite, text, rewritten):
    """Prints a row, and gives what differs."""
    out, row = [], []
    with tempfile.TemporaryDirectory() as folder:
        changed = os.path.join(folder, "changed.tasks")
        for threads in THREADS:
            both = reported(rewrite, text, threads, changed)
            found = ends(both, own(rewritten, threads), threads)
            row.append("%d threads %s" % (threads, found))
            out += [found.fault] if found.fault else []
        if rewrite.is_whole:
            changed_shape = shape(without_empty_groups(Text(changed, 1).statements()))
            differ = first_difference(changed_shape, shape(Text(rewritten, 1).statements()))
            out += [differ] if differ else []
            row.append("another shape" if differ else "the same shape")
    print("%-8s %-12s %s" % ("DIFFERS" if out else "ok", rewrite.name, "; ".join(row)))
    return out


def recorded_faults(rewrite, folder):
    """Once more where it differs, since measured times are compared: what other programs make it cost does not always
    show in the work."""
    found = []
    for _ in range(TRIES):
        if found:
            print("again %s: %s" % (rewrite.name, "; ".join(found)))
        found = faults(rewrite, *recorded(folder, rewrite.name, rewrite.rewritten))
        if not found:
            return []
    return found


def main(words):
    if words == ["kept"]:
        found = [faults(rewrite, os.path.join(KEPT, rewrite.name + ".tasks"),
                        os.path.join(KEPT, rewrite.rewritten + ".tasks")) for rewrite in TUTORIAL]
    else:
        found = [recorded_faults(rewrite, os.path.abspath(words[0])) for rewrite in PROGRAMS + TUTORIAL]
    for one in found:
        print("".join("  %s\n" % fault for fault in one), end="")
    print("%d rewrites, %d of them differ" % (len(found), sum(map(bool, found))))
    sys.exit(any(found) or not found)


if __name__ == "__main__":
    main(sys.argv[1:])
