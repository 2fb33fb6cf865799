#!/usr/bin/env python3
"""Damages logs at random, and converts what is left: damaged.py CONVERTER [COUNT]; damaged_logs.sh calls it.

Each must be refused with a word of it, or become texts that spanprof takes; with no crash, within SECONDS of processor
time and MEGABYTES of memory. RECORDER names the recorder's library, LLVM its version, SEED the damage, KEEP a folder
for the logs on which the converter failed. Status 1: something was wrong.
"""
import json
import os
import random
import re
import resource
import shutil
import subprocess
import sys
import tempfile

from damage import damage

HERE = os.path.dirname(os.path.abspath(__file__))
sys.path.append(os.path.join(os.path.dirname(HERE), "..", "llvm"))
sys.path.append(os.path.join(HERE, "..", "..", "..", "tools"))
from recording import LOADED, Wrong, build, log_of  # noqa: E402
from spanprof import client  # noqa: E402
from spanprof.command import Fault  # noqa: E402

SECONDS, MEGABYTES = 30, 1500
BELOW_ZERO = re.compile(rb"^(?:# elapsed: -|\d+ \d+ (?:-|\d+ -))\d+", re.M)
RUNS = ("wall",), ("cpu",), ("wall", "late"), ("cpu", "late")    # the clock, and the program's argument
WAYS = ({"SPANPROF_TIMES": "1"}, {"SPANPROF_WHOLE": "1", "SPANPROF_TIMES": "1"})
CHECKED = {"ASAN_OPTIONS": "detect_leaks=0:hard_rss_limit_mb=%d:allocator_may_return_null=0" % MEGABYTES,
           "UBSAN_OPTIONS": "print_stacktrace=1"}


def record(words, out, clock):
    variables = dict(os.environ, OMP_NUM_THREADS="3", OMP_CANCELLATION="true", **LOADED,
                     SPANPROF_OUT=out, SPANPROF_QUIET="1", SPANPROF_CLOCK=clock, SPANPROF_CALL_PATHS="1")
    subprocess.run(words, env=variables, stdout=subprocess.DEVNULL, check=True)


def limit():
    resource.setrlimit(resource.RLIMIT_CPU, (SECONDS, SECONDS))
    resource.setrlimit(resource.RLIMIT_CORE, (0, 0))


def convert(converter, log, way):
    """What it told, and its status; raises where it failed."""
    done = subprocess.run([converter, log, log + ".out"], env=dict(os.environ, SPANPROF_LINES="0", **CHECKED, **way),
                          capture_output=True, preexec_fn=limit, check=False)
    try:
        reported = [json.loads(line) for line in done.stdout.decode("utf-8", "surrogateescape").splitlines()]
    except ValueError as wrong:
        raise Wrong("what it tells is no JSON: %s" % done.stdout[-300:]) from wrong
    if done.returncode not in (0, 1) or done.stderr or \
            (done.returncode == 1) != any(one["message"] == "fault" for one in reported):
        raise Wrong("status %d of %s, and no fault: %s" % (done.returncode, way, done.stderr.decode(errors="replace")))
    return reported


def check_times(folder):
    """Raises where a time is below zero."""
    for name in sorted(os.listdir(folder)):
        if name.endswith((".tasks", ".timed", ".times")):
            with open(os.path.join(folder, name), "rb") as file:
                found = BELOW_ZERO.search(file.read())
            if found:
                raise Wrong("%s has a time below zero: %s" % (name, found.group().decode()))


def judge(folder, reported):
    """Raises where spanprof refuses a text, or a time is none."""
    check_times(folder)
    for one in reported:
        try:
            if one["message"] == "text" and ".large." not in one["file"]:
                client.read(os.path.join(folder, one["file"]))
        except Fault as fault:
            raise Wrong(str(fault)) from fault


def try_log(converter, log, folder):
    """How many of the ways it was refused."""
    refused = 0
    for way in WAYS:
        reported = convert(converter, log, way)
        refused += any(one["message"] == "fault" for one in reported)
        judge(folder, reported)
    return refused


def try_damage(converter, whole, seed, keep):
    """How many of the ways the damaged copy was refused."""
    with tempfile.TemporaryDirectory() as folder:
        log = os.path.join(folder, "damaged.log")
        shutil.copytree(whole, log)
        how = damage(log, random.Random(seed))
        try:
            return try_log(converter, log, folder)
        except Wrong as fault:
            if keep:
                shutil.copytree(log, os.path.join(keep, "%s.log" % seed))
            print("WRONG %s, %s: %s" % (seed, how, fault), flush=True)
            return None


def try_all(converter, count, seed, keep):
    with tempfile.TemporaryDirectory() as folder:
        program, wholes = build(os.path.join(HERE, "program.c"), folder), []
        for i, (clock, *more) in enumerate(RUNS):
            out = os.path.join(folder, str(i))
            record([program, *more], out, clock)
            wholes.append(log_of(out))
            if try_log(converter, wholes[-1], folder):
                raise Wrong("a log without damage is refused")
        found = [try_damage(converter, wholes[i % len(wholes)], "%s.%d" % (seed, i), keep) for i in range(count)]
    wrong = found.count(None)
    refused = sum(bool(one) for one in found)
    print("%d damaged logs in %d ways each: %d refused, %d converted, %d wrong" % (
        count, len(WAYS), refused, count - refused - wrong, wrong))
    return wrong


def main(words):
    seed = os.environ.get("SEED") or str(random.SystemRandom().randrange(10 ** 9))
    print("SEED=%s" % seed, flush=True)
    try:
        return bool(try_all(os.path.abspath(words[0]), int(words[1]) if len(words) > 1 else 300, seed,
                            os.environ.get("KEEP")))
    except Wrong as fault:
        print(fault)
        return 1


if __name__ == "__main__":
    sys.exit(main(sys.argv[1:]))
