#!/usr/bin/env python3
"""Damages the files of a recording, and has spanprof-report read them: readers.py [COUNT]; damaged_logs.sh calls it.

It ends with a page, or with one clear line: no traceback, and within SECONDS. SEED names the damage, KEEP a folder for
the recordings on which it failed. Status 1: something was wrong.
"""
import json
import os
import random
import shutil
import subprocess
import sys
import tempfile

HERE = os.path.dirname(os.path.abspath(__file__))
TOOLS = os.path.join(HERE, "..", "..", "..", "tools")
sys.path += [os.path.join(HERE, "..", "..", "llvm"), TOOLS]
from recording import Wrong, build  # noqa: E402
from spanprof.recording import META, checksum  # noqa: E402

SECONDS = 120
ODD = ("[" * 100000, '{"a":' * 50000, "", "\n\n", "\u2028", "9" * 400, "1e999", "-1", "NaN", "null", '"', "{}", "\0",
       "\udcff")


def placed(line, chance):
    """Something odd in the place of a stretch of the line, which begins behind one of its signs."""
    at = [i + 1 for i, sign in enumerate(line) if sign in ' :,[{"'] or [0]
    first = chance.choice(at)
    return line[:first] + chance.choice(ODD) + line[first + chance.choice((0, 1, 1, 5, 30)):]


def damaged(text, chance):
    lines = text.split("\n")
    i = chance.randrange(min(len(lines), 60))
    way = chance.randrange(6)
    if way == 0:
        return text[:chance.randrange(len(text) + 1)]
    if way == 1:
        lines[i:i] = [chance.choice(ODD)]
    elif way == 2:
        lines[i:i + 1] = [lines[i]] * chance.choice((0, 2))
    else:
        lines[i] = placed(lines[i], chance)
    return "\n".join(lines)


def own_checksum(folder, name):
    """That of the damaged file, or nothing else of it would be read."""
    with open(os.path.join(folder, META), encoding="utf-8") as file:
        reported = json.load(file)
    reported["files"][name] = checksum(os.path.join(folder, name))
    with open(os.path.join(folder, META), "w", encoding="utf-8") as file:
        json.dump(reported, file)


def damage(folder, chance):
    """How one of its files was damaged, in words."""
    names = sorted(name for name in os.listdir(folder) if os.path.isfile(os.path.join(folder, name)))
    name = chance.choice(names)
    path = os.path.join(folder, name)
    with open(path, encoding="utf-8", errors="surrogateescape", newline="") as file:
        text = file.read()
    with open(path, "w", encoding="utf-8", errors="surrogateescape", newline="") as file:
        file.write(damaged(text, chance))
    if name != META:
        own_checksum(folder, name)
    return name


def try_one(folder):
    """Whether it was refused."""
    words = [os.path.join(TOOLS, "spanprof-report"), folder, "-o", folder + ".html"]
    done = subprocess.run(words, capture_output=True, text=True, timeout=SECONDS, check=False)
    said = done.stderr.strip()
    if "Traceback" in said or done.returncode < 0 or (done.returncode and (not said or len(said) > 2000)):
        raise Wrong("status %d: %s" % (done.returncode, said[-600:]))
    return done.returncode != 0


def try_damage(whole, seed, keep):
    with tempfile.TemporaryDirectory() as scratch:
        folder = os.path.join(scratch, "damaged.spanprof")
        shutil.copytree(whole, folder)
        name = damage(folder, random.Random(seed))
        try:
            return try_one(folder)
        except (Wrong, subprocess.TimeoutExpired) as fault:
            if keep:
                shutil.copytree(folder, os.path.join(keep, "%s.spanprof" % seed))
            print("WRONG %s, %s: %s" % (seed, name, fault), flush=True)
            return None


def main(words):
    seed, count = os.environ.get("SEED") or str(random.SystemRandom().randrange(10 ** 9)), int((words + ["100"])[0])
    print("SEED=%s" % seed, flush=True)
    with tempfile.TemporaryDirectory() as scratch:
        out = os.path.join(scratch, "whole")
        words = [os.path.join(TOOLS, "spanprof-record"), "--threads", "2", "--out", out, "--",
                 build(os.path.join(HERE, "program.c"), scratch)]
        subprocess.run(words, capture_output=True, check=True)
        if try_one(out + ".spanprof"):
            raise Wrong("a recording without damage is refused")
        found = [try_damage(out + ".spanprof", "%s.%d" % (seed, i), os.environ.get("KEEP")) for i in range(count)]
    print("%d damaged recordings: %d refused, %d wrong" % (count, sum(map(bool, found)), found.count(None)))
    return int(None in found)


if __name__ == "__main__":
    sys.exit(main(sys.argv[1:]))
