#!/usr/bin/env python3
"""Kills a recorded program at random moments, and converts what is left: killed.py [RUNS]; killed_runs.sh calls it.

Each log must become a text that is the beginning of the whole program's, or be reported to have no tasks yet, and of a
program that was killed before its region was over the converter must say where the log ends. Half of the runs end by
SIGKILL, a quarter each by SIGSEGV and SIGTERM. RECORDER names the recorder's library, LLVM its version, SEED the
moments. Status 1: something was wrong.
"""
import os
import random
import signal
import subprocess
import sys
import tempfile
import time

from prefix import count, is_prefix, read

HERE = os.path.dirname(os.path.abspath(__file__))
sys.path.append(os.path.join(os.path.dirname(HERE), "..", "llvm"))
from recording import LOADED, Wrong, build, log_of, remove, texts  # noqa: E402

SIGNALS = (signal.SIGKILL, signal.SIGKILL, signal.SIGSEGV, signal.SIGTERM)
NOT_BEGUN = "the program ended before recording began"
WORDS = ["11", "20000"]  # 4,094 tasks, of which each takes some microseconds
SECONDS = 1200  # for one run


def run(program, out, moment=None, number=signal.SIGKILL):
    """Runs it until its end, or so many seconds. How long it took, its status, and whether its region was over."""
    variables = dict(os.environ, OMP_NUM_THREADS="4", OMP_WAIT_POLICY="passive", SPANPROF_OUT=out,
                     SPANPROF_QUIET="1", SPANPROF_PARTS="none", **LOADED)
    began = time.monotonic()
    process = subprocess.Popen([program] + WORDS, env=variables, stdout=subprocess.PIPE, text=True)
    try:
        process.wait(SECONDS if moment is None else moment)
    except subprocess.TimeoutExpired:
        process.send_signal(number if moment is not None else signal.SIGKILL)
        process.wait()
    with process.stdout as printed:
        return time.monotonic() - began, process.returncode, printed.read() == "over"


def converted(out):
    """What is said, and the program of the text; none where there is no text."""
    said, has_failed = texts(out, {"SPANPROF_PARTS": "none"})
    if has_failed and NOT_BEGUN not in said:
        raise Wrong("the log is not converted: " + said)
    if not os.path.exists(out + ".tasks"):
        return said, None
    with open(out + ".tasks", encoding="utf-8") as file:
        return said, read(file.read())


def judge(said, some, whole, is_over):
    """Raises where something is wrong; how many tasks the text has."""
    if NOT_BEGUN in said and not is_over:
        return 0
    if not is_over and "the log ends " not in said:
        raise Wrong("it is not reported where the log ends: " + said)
    if some is None and "no parallel region with tasks" not in said:
        raise Wrong("there is no text: " + said)
    if not is_prefix(some or [], whole) or (is_over and some != whole):
        raise Wrong("the text is no beginning of the whole, or lacks its end")
    return count(some or [])


def try_moment(program, folder, whole, moment, number):
    out = os.path.join(folder, "killed")
    _, _, is_over = run(program, out, moment, number)
    try:
        has_head = os.path.exists(os.path.join(log_of(out), "head"))
        return judge(*converted(out), whole, is_over) if has_head or is_over else 0
    finally:
        remove(out)


def try_all(folder, runs, chance):
    program, out = build(os.path.join(HERE, "program.c"), folder), os.path.join(folder, "whole")
    took, status, _ = run(program, out)
    _, whole = converted(out)
    if status or whole is None or count(whole) != 4094:
        raise Wrong("the whole run has status %d and %s" % (status, "no text" if whole is None else count(whole)))
    tasks = []
    for i in range(runs):
        moment, number = chance.uniform(0, took), SIGNALS[i % len(SIGNALS)]
        try:
            tasks.append(try_moment(program, folder, whole, moment, number))
        except Wrong as fault:
            raise Wrong("%s after %.4f s: %s" % (number.name, moment, fault)) from fault
    inside = [number for number in tasks if 0 < number < 4094]
    print("%d runs, %d of them killed with %d to %d tasks: each log is the beginning of the whole" % (
        len(tasks), len(inside), min(inside, default=0), max(inside, default=0)))


def main(words):
    seed = os.environ.get("SEED") or str(random.SystemRandom().randrange(10 ** 9))
    try:
        with tempfile.TemporaryDirectory() as folder:
            try_all(folder, int(words[0]) if words else 100, random.Random(seed))
    except Wrong as fault:
        print("SEED=%s: %s" % (seed, fault))
        return 1
    return 0


if __name__ == "__main__":
    sys.exit(main(sys.argv[1:]))
