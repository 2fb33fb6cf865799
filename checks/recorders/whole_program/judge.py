#!/usr/bin/env python3
"""Records each shape on 1 to 8 threads as one text, and judges its work, its span, and what the summary says.

    judge.py PROGRAM [SHAPE ..]    the program of shapes.c
The status is 0 where nothing is wrong.
"""
import os
import re
import subprocess
import sys
import tempfile

from built import AROUND, OWN_THREADS, SHAPES, SLACK, WAITING, WITH_TASKS, beginning_with, faults_of_numbers
from judging import faults, refuted
from sentences import read

TOP = os.path.dirname(os.path.dirname(os.path.dirname(os.path.dirname(os.path.abspath(__file__)))))
sys.path.append(os.path.join(TOP, "tools"))
from spanprof.head import read_head  # noqa: E402

RECORD = os.path.join(TOP, "tools", "spanprof-record")
SPANPROF = os.environ.get("SPANPROF", os.path.join(TOP, "crates/spanprof/out/spanprof"))
THREADS = (1, 2, 4, 8)
COVERED = 95.0
OF_TASKS = re.compile(r"\b(task at|taskgroup|too few tasks|tasks too small|depend items|neighbours are one task)\b")


def ended(words, variables=None):
    done = subprocess.run(words, capture_output=True, text=True, errors="replace", check=False,
                          env=dict(os.environ, **variables or {}))
    if done.returncode:
        sys.exit("%s: status %d\n%s" % (" ".join(words), done.returncode, done.stderr))
    return done


def elapsed(program, shape, threads):
    """Of a run that nobody records, in milliseconds."""
    return float(ended([program, shape], {"OMP_NUM_THREADS": str(threads)}).stdout)


def record(program, shape, threads, folder):
    """The text, and the lines of the summary."""
    out = os.path.join(folder, "%s_%d" % (shape, threads))
    options = ["--out", out, "--unit", "us", "--clock", "cpu", "--threads", str(threads)]
    done = ended([RECORD, "--all", *options, "--", program, shape])
    return os.path.join(out + ".spanprof", "program.tasks"), done.stderr.splitlines()


def numbers(text):
    """Work and span in milliseconds, by spanprof, of a text in microseconds."""
    with open(text, encoding="utf-8") as file:
        words = subprocess.run([SPANPROF, "span"], stdin=file, capture_output=True, text=True, check=True).stdout
    found = dict(re.findall(r"(\w+) (\d+)", words))
    return int(found["work"]) / 1000, int(found["span"]) / 1000


def around(words):
    """The code of a text before its first block and after its last one, in milliseconds."""
    lines = [line.partition("#")[0] for line in words.splitlines()]
    blocks = [number for number, line in enumerate(lines) if "{" in line or "}" in line] or [len(lines)]
    outer = lines[:blocks[0]] + lines[blocks[-1] + 1:]
    return sum(int(cost) for cost in re.findall(r"\bwork (\d+)", "\n".join(outer))) / 1000


def of_every_program(text, shape):
    """What this run of the program had beside what was built in: its loading, and the runtime's beginning and end."""
    with open(text, encoding="utf-8") as file:
        return around(file.read()) - AROUND.get(shape.name, 0)


def covered(text):
    with open(text, encoding="utf-8") as file:
        head = read_head(file.read())
    return 100 * head.covered / head.thread_time if head.thread_time else 0.0


def reported_threads(shape):
    """What waits for a turn is told apart from what works only where each thread has a processor."""
    if shape.name in OWN_THREADS:
        return [OWN_THREADS[shape.name]]
    return [threads for threads in THREADS if shape.name not in WAITING or threads <= os.cpu_count()]


def reported_of_tasks(lines, shape):
    """Of a program that makes none what the summary tells of its tasks."""
    return ["it has no tasks: " + line for line in lines if shape.name not in WITH_TASKS and OF_TASKS.search(line)]


def judge(program, shape, threads, folder, runs):
    text, lines = record(program, shape.name, threads, folder)
    before = of_every_program(text, shape)
    shape = beginning_with(shape, before)
    summary = read(lines)
    found = list(faults_of_numbers(shape, threads, *numbers(text))) + faults(summary, shape, threads)
    found += reported_of_tasks(lines, shape)
    if before < -SLACK:
        found.append("%.2f is missing of what is around all regions" % -before)
    for others, took in runs.items():
        found += refuted(summary, shape, others, took + before)
    if covered(text) < COVERED:
        found.append("covers %.1f %% of the program" % covered(text))
    print("%-6s %s on %d threads" % ("WRONG" if found else "ok", shape.name, threads), flush=True)
    if found:
        print("\n".join(["  " + fault for fault in found] + ["  | " + line for line in lines]), flush=True)
    return bool(found)


def main(words):
    program, wrong = os.path.abspath(words[0]), 0
    with tempfile.TemporaryDirectory() as folder:
        for shape in SHAPES:
            if words[1:] and shape.name not in words[1:]:
                continue
            asked = reported_threads(shape) if shape.name in OWN_THREADS else THREADS
            runs = {threads: elapsed(program, shape.name, threads) for threads in asked}
            wrong += sum(judge(program, shape, threads, folder, runs) for threads in reported_threads(shape))
    print("%d wrong" % wrong)
    sys.exit(bool(wrong))


if __name__ == "__main__":
    main(sys.argv[1:])
