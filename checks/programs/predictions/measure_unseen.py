#!/usr/bin/env python3
"""Measures programs that nothing was fitted to, in turns that a folder gathers, and judges what is predicted of them.

    measure_unseen.py build FOLDER              compiles them, before and after their changes, and measures the machine
    measure_unseen.py turns FOLDER [TURNS]      so many turns more
    measure_unseen.py texts FOLDER              makes texts of the recordings that have none yet
    measure_unseen.py judge FOLDER              judges by all turns of the folder
    measure_unseen.py all FOLDER [TURNS]        one after the other
A turn runs each program on 1 to 4 threads, before and after its change, and records it before the change on 1, 2 and 4;
with RUNTIME=gnu, by gcc and on its runtime, on 4 alone. The folder keeps everything: the programs, turns.csv,
watched.csv, the logs and their texts. The runtime's costs are those of SPANPROF_MACHINE, or measured first, for which
SPANPROF has to be there. A turn that is cut short does not count. Only `turns` needs the machine for itself.
"""
import csv
import os
import pathlib
import signal
import subprocess
import sys
from concurrent.futures import ThreadPoolExecutor

from quiet import Watch, going_first
from runs import TOP, build_clock, compiled, convert, record_all, recordings, region_time
from unseen import HAS_CHANGES, ON_GCC, UNSEEN

from versions import asked      # of checks/llvm, which `runs` has found

VERSION = os.environ.get("LLVM", "16")
TURNS, THREADS, RECORDED = (40, (4,), (4,)) if ON_GCC else (12, (4, 3, 2, 1), (4, 2, 1))
BEFORE, AFTER = "before", "after"
VERSIONS = (BEFORE, AFTER) if HAS_CHANGES else (BEFORE,)
TIMES, WATCHED = "turns.csv", "watched.csv"
NAMES = {TIMES: ("program", "version", "threads", "turn", "nanoseconds", "gave_way"),
         WATCHED: ("turn", "stolen", "others", "load")}


def llvm():
    found = asked(VERSION)
    if not found:
        sys.exit("LLVM %s's compiler or OpenMP runtime is missing" % VERSION)
    return found[0]


def program_of(folder, one, version):
    return folder / version / one.name


def calibrate(folder):
    """The file of the machine's model."""
    known = os.environ.get("SPANPROF_MACHINE", "")
    if not os.path.exists(known):
        known = str(folder / "machine.json")
        done = subprocess.run([str(TOP / "tools" / "spanprof-record"), "--calibrate", "--runtime", llvm().runtime],
                              env=dict(os.environ, SPANPROF_MACHINE=known), stdout=subprocess.DEVNULL, check=False)
        if done.returncode:
            sys.exit("the runtime's costs are not known; SPANPROF_MACHINE names a file that has them")
    (folder / "model").write_text(known)


def build(folder):
    folder.mkdir(parents=True, exist_ok=True)
    build_clock(folder)
    words = ["gcc"] if ON_GCC else llvm().compiler()
    todo = [(one, version) for one in UNSEEN for version in VERSIONS]
    with ThreadPoolExecutor(len(os.sched_getaffinity(0))) as pool:
        list(pool.map(lambda pair: compiled(words, *pair, program_of(folder, *pair)), todo))
    calibrate(folder)


def rows(path):
    with open(path, encoding="utf-8", newline="") as file:
        yield from csv.DictReader(file)


def next_turn(folder):
    """Behind each that has begun."""
    begun = (int(row["turn"]) for name in NAMES if (folder / name).exists() for row in rows(folder / name))
    return max(begun, default=0) + 1


def add(folder, name, several):
    """To a table, which has its names in the first line."""
    is_new = not (folder / name).exists()
    with open(folder / name, "a", encoding="utf-8", newline="") as file:
        out = csv.writer(file, lineterminator="\n")
        out.writerows([NAMES[name]] * is_new + several)


def turn_of(folder, turn):
    """All runs, and then all recordings. Those on as many threads follow one another: behind one on a single thread the
    other processors have had nothing to do, and runs are slow more often."""
    found = [(one.name, version, threads, turn, *region_time(folder, program_of(folder, one, version), threads))
             for threads in THREADS for one in UNSEEN for version in VERSIONS]
    record_all(folder, [(program_of(folder, one, BEFORE), "%s.%d.%d" % (one.name, threads, turn), threads)
                        for threads in RECORDED for one in UNSEEN])
    return found


def measure(folder, turns=TURNS):
    signal.signal(signal.SIGTERM, lambda *_: sys.exit("the last turn is cut short, and does not count"))
    first = next_turn(folder)
    with going_first():
        for turn in range(first, first + turns):
            watch = Watch()
            found = turn_of(folder, turn)
            add(folder, WATCHED, [(turn, *watch.used())])
            add(folder, TIMES, found)
            print("turn %d of %d" % (turn, first + turns - 1), file=sys.stderr, flush=True)


def texts(folder):
    todo = [name for name in recordings(folder) if not name.with_name(name.name + ".tasks").exists()]
    with ThreadPoolExecutor(len(os.sched_getaffinity(0))) as pool:
        list(pool.map(convert, todo))


def judge(folder):
    from judge_unseen import judge as judge_all     # what it imports takes a while
    return judge_all(folder)


STEPS = {"build": build, "turns": measure, "texts": texts, "judge": judge}


def main(words):
    step, folder, turns = words[0], pathlib.Path(words[1]).resolve(), [int(word) for word in words[2:]]
    status = 0
    for name, call in STEPS.items():
        if step in (name, "all"):
            status = call(folder, *turns if name == "turns" else ()) or 0
    return status


if __name__ == "__main__":
    sys.exit(main(sys.argv[1:]))
