"""Runs programs of the distribution as they are and recorded, each in its own folder, and compares what comes of it.

real.py PROGRAMS RECORDER [WORD ..]: those of a list whose command has one of the words, or all. A program is right
where its status, what it prints and the files that it writes are as without the recorder; the summary names the
runtime; the time breakdown adds up; no sentence says what cannot be so; and the diagnosis has a change, or a reason for
none. Lines that tell times are left out. Status 1: a program is wrong.
"""
import json
import os
import re
import shlex
import shutil
import subprocess
import sys
import tempfile
from dataclasses import dataclass

import inputs

SECONDS = 240
OPENBLAS = "/usr/lib/x86_64-linux-gnu/openblas-openmp"  # where that on threads of its own is installed too
VARIES = re.compile(rb"time|second|\bsec\b|date|speedup|memory|\d:\d\d|\d s\b", re.I)
RUNTIME = re.compile(r"threads? of ((?:gcc|LLVM) \d+)")
OUTPUT = "standard output"
NEVER = re.compile(r"account not reported|clocks differ|Traceback|\bnan\b|(?<=\s)-\d")
OF_BARRIERS = re.compile("after the barrier of")     # in the place of what code has behind it
OF_TASKS = re.compile(r"\b(cutoff|fold|taskwait|grainsize|depend|(too few|uneven|small|longest) tasks)\b")
NO_TASKS = re.compile(r"^tasks +0,", re.M)
FIRST_LINES = 8
REASONS = ("machine", "efficient")      # causes of which nobody changes the program
INTERPRETER = "the interpreter ("       # nor is its code divided, or that of libraries without lines
OF_GLUE = re.compile("parallelise code (before|after|in)")


@dataclass
class Left:
    """What a run left: its status, each file's bytes without lines that vary, and standard error."""
    status: object
    files: dict
    said: str


def entries(listing):
    """PACKAGE and words of the lines of a list."""
    lines = (line.strip() for line in listing.splitlines())
    return [(line.partition(":")[0], shlex.split(line.partition(":")[2])) for line in lines
            if line and not line.startswith("#")]


def steady(data):
    return b"\n".join(line for line in data.split(b"\n") if not VARIES.search(line))


def new_files(folder, old):
    found = {}
    for path, _, names in os.walk(folder):
        for name in names:
            full = os.path.join(path, name)
            with open(full, "rb") as file:
                data = steady(file.read())
            if old.get(os.path.relpath(full, folder)) != data:
                found[os.path.relpath(full, folder)] = data
    return found


def run(words, environment):
    with tempfile.TemporaryDirectory() as folder:
        inputs.main(folder)
        old = new_files(folder, {})
        try:
            done = subprocess.run(words, cwd=folder, env=environment, capture_output=True, timeout=SECONDS,
                                  stdin=subprocess.DEVNULL)
        except subprocess.TimeoutExpired:
            return Left("no end after %d seconds" % SECONDS, {}, "")
        files = dict(new_files(folder, old), **{OUTPUT: steady(done.stdout)})
    return Left(done.returncode, files, done.stderr.decode("utf-8", "replace"))


def differences(plain, other):
    """What is otherwise in the second run."""
    if plain.status != other.status:
        yield "status %s, and %s without the recorder" % (other.status, plain.status)
    for name in sorted(set(plain.files) | set(other.files)):
        if plain.files.get(name) != other.files.get(name):
            yield "%s differs" % name


def faults(plain, others, recorded):
    """Files that differ between runs without the recorder tell nothing."""
    varies = {fault for other in others for fault in differences(plain, other)}
    yield from (fault for fault in differences(plain, recorded) if fault not in varies)
    if not RUNTIME.search(recorded.said):
        yield "the summary names no runtime: %s" % recorded.said.strip()


def forbidden(said):
    """Sentences that cannot be so."""
    first = "\n".join(said.split("\n")[:FIRST_LINES])
    reported = [(NEVER, said), (OF_BARRIERS, first)] + [(OF_TASKS, first)] * bool(NO_TASKS.search(said)) + \
        [(OF_GLUE, first)] * (INTERPRETER in said)
    yield from ("it says '%s'" % found[0] for pattern, words in reported for found in pattern.finditer(words))
    for threads, busy in re.findall(r"on (\d+) threads: ([\d.]+) of them busy", said):
        if float(busy) > int(threads):
            yield "%s of %s threads are busy" % (busy, threads)


def account_faults(reported):
    account = reported["account"]
    if not account:
        yield "no account: %s" % reported["no account"]
    elif sum(account["parts"].values()) != account["threads"] * account["elapsed"]:
        yield "the account does not add up"


def diagnosis_faults(reported):
    causes, is_interpreted = reported["diagnosis"], INTERPRETER in str(reported["losses"])
    if not causes:
        yield "no diagnosis"
    elif causes[0]["kind"] not in REASONS and not causes[0]["change"] and not is_interpreted:
        yield "no change for '%s'" % causes[0]["what"]


def reported_faults(said, path):
    """Of what is reported, in words and as JSON."""
    yield from forbidden(said)
    if os.path.exists(path):
        with open(path, encoding="utf-8") as file:
            reported = json.load(file)
        yield from account_faults(reported)
        yield from diagnosis_faults(reported)


def try_program(words, recorder):
    """What is wrong, the runtime's name, and what costs time."""
    environment = dict(os.environ, OMP_NUM_THREADS="2", OMP_WAIT_POLICY="passive", LD_LIBRARY_PATH=OPENBLAS)
    plain, again = run(words, environment), run(words, environment)
    with tempfile.TemporaryDirectory() as out:
        path = os.path.join(out, "told")
        options = ["--all", "--json", path, "--out", os.path.join(out, "run")]
        recorded = run([recorder, *options, "--", *words], environment)
        found = list(faults(plain, [again], recorded))
        if found:   # two runs may be alike by chance
            found = list(faults(plain, [again, run(words, environment)], recorded))
        found += reported_faults(recorded.said, path)
    named, lost = RUNTIME.search(recorded.said), re.search(r"^lost +(.*)", recorded.said, re.M)
    return found, "status %s, on %s: %s" % (plain.status, named[1] if named else "nothing", lost[1] if lost else "")


def main(listing, recorder, *wanted):
    wrong = tried = 0
    with open(listing, encoding="utf-8") as file:
        programs = entries(file.read())
    for package, words in programs:
        name = " ".join(words)
        if wanted and not any(word in name for word in wanted):
            continue
        if not shutil.which(words[0]):
            print("skipped: %s (package %s)" % (words[0], package))
            continue
        found, reported = try_program(words, recorder)
        tried += 1
        wrong += bool(found)
        print("%s: %s%s" % (name, reported, "".join("\n  " + fault for fault in found)), flush=True)
    print("%d programs, %d wrong" % (tried, wrong))
    return 1 if wrong or not tried else 0


if __name__ == "__main__":
    sys.exit(main(*sys.argv[1:]))
