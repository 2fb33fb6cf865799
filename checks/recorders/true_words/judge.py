#!/usr/bin/env python3
"""Records each shape on 1 to 8 threads, and judges what the summary of the whole program says.

    judge.py SHAPES [CLOCK ..]    the program of shapes.c; clocks are cpu, wall and counted, without any cpu
By `counted` a processor's clock counts its readings while a run is recorded: its costs are what is built in, however
busy the machine is. The status is 0 where no sentence is refuted.
"""
import os
import subprocess
import sys
import tempfile

from judging import doubts_of, faults, refuted
from sentences import blocks, read
from truth import SHAPES

TOP = os.path.dirname(os.path.dirname(os.path.dirname(os.path.dirname(os.path.abspath(__file__)))))
sys.path += [os.path.join(TOP, "tools"), os.path.join(TOP, "checks", "llvm")]
from recording import counted_clock  # noqa: E402
from spanprof.head import head_text, read_head  # noqa: E402

RECORD = os.path.join(TOP, "tools", "spanprof-record")
THREADS = (1, 2, 4, 8)


def summary_of(program, shape, threads, clock, out):
    is_counted = clock == "counted"
    settings = {"LD_PRELOAD": counted_clock(os.path.dirname(out))} if is_counted else {}
    options = ["--out", out, "--unit", "us", "--clock", "cpu" if is_counted else clock, "--threads", str(threads)]
    words = [RECORD, "--all", *options, "--", program, shape.name]
    done = subprocess.run(words, env=dict(os.environ, **settings), capture_output=True, text=True, errors="replace")
    if done.returncode:
        sys.exit("%s on %d threads: status %d\n%s" % (shape.name, threads, done.returncode, done.stderr))
    found = blocks(done.stderr.splitlines())
    if len(found) != 1:
        sys.exit("%s on %d threads: %d summaries\n%s" % (shape.name, threads, len(found), done.stderr))
    return found[0]


def elapsed(program, shape, threads):
    """Of a run that nobody records, in milliseconds."""
    variables = dict(os.environ, OMP_NUM_THREADS=str(threads))
    done = subprocess.run([program, shape.name], env=variables, capture_output=True, text=True, check=True)
    return float(done.stdout)


def beginning_of(out, shape):
    """What this run had outside of regions beside what is built in, in milliseconds."""
    head = read_head(head_text(os.path.join(out + ".spanprof", "program.tasks")))
    return head.division["in serial code"] / 1000 - shape.serial


def judge_summary(lines, shape, threads, runs, name, is_counted):
    """Whether it is refuted, and whether it doubts its own work."""
    summary = read(lines)
    if is_counted:   # other code has no time by that clock: it looks asleep, and moves no cost of tasks
        summary.busy = None
        summary.is_work_doubted = summary.is_work_doubted and not shape.is_plain
    found = faults(summary, shape, threads)
    for others, took in runs.items():
        found += refuted(summary, shape, others, took)
    doubts = doubts_of(summary)
    print("%-7s %s%s" % ("REFUTED" if found else "ok", name, ", which doubts its " + doubts if doubts else ""),
          flush=True)
    if found:
        print("\n".join(["  " + fault for fault in found] + ["  | " + line for line in lines]))
    return bool(found), summary.is_work_doubted


def judge_run(program, shape, threads, clock, folder, runs):
    """The same of the summary of a recorded run."""
    out = os.path.join(folder, "%s_%d_%s" % (shape.name, threads, clock))
    lines = summary_of(program, shape, threads, clock, out)
    more = beginning_of(out, shape)
    took = {others: time + more for others, time in runs.items()}
    name = "%s on %d threads, clock %s" % (shape.name, threads, clock)
    return judge_summary(lines, shape.whole(more), threads, took, name, clock == "counted")


def judge(program, shape, clock, folder):
    """How many summaries there are, how many are refuted, and how many doubt their own work."""
    runs = {threads: elapsed(program, shape, threads) for threads in THREADS}
    found = [judge_run(program, shape, threads, clock, folder, runs) for threads in THREADS]
    return len(found), sum(wrong for wrong, _ in found), sum(doubted for _, doubted in found)


def main(words):
    program, clocks, wrong = os.path.abspath(words[0]), words[1:] or ["cpu"], 0
    with tempfile.TemporaryDirectory() as folder:
        for clock in clocks:
            found = [judge(program, shape, clock, folder) for shape in SHAPES]
            count, refutations, doubted = map(sum, zip(*found))
            wrong += refutations
            print("clock %s: %d summaries, %d of them refuted, %d doubt their work" % (
                clock, count, refutations, doubted))
    sys.exit(bool(wrong))


if __name__ == "__main__":
    main(sys.argv[1:])
