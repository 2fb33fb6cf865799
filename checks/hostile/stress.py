#!/usr/bin/env python3
"""Runs programs again and again on 2 to 8 workers, and looks for a run that does not end or that answers otherwise.

    checks/hostile/stress.py [RUNS [PROGRAM]]    10,000 runs of crates/spanprof/out/spanprof, or of this program

Each run is a process of its own, `spanprof run --workers N`, so that its threads start anew, and it has 60 seconds.
It has to write what the run on one worker writes. The exit status is 1 where one did not.
"""

import subprocess
import sys
import time
from pathlib import Path

TOP = Path(__file__).resolve().parents[2]
RUNS = int(sys.argv[1]) if len(sys.argv) > 1 else 10_000
PROGRAM = str(Path(sys.argv[2] if len(sys.argv) > 2 else TOP / "crates/spanprof/out/spanprof").resolve())
WORKERS = range(2, 9)
SECONDS = 60

TEXTS = {
    "worked": "work 5 task { work 3 } work 2 taskwait work 1",
    "chain of 100": "task depend(inout: a) { work 1 } " * 100,
    "200 independent tasks": "task { work 1 } " * 200,
    "nested": "task { " * 12 + "work 1 " + "taskwait } " * 12,
    "waits and groups": "taskgroup { task { task { } } } taskwait " * 20,
    "undeferred": "task if(0) { task { work 1 } taskwait } " * 20,
}


def run(text, workers):
    words = [PROGRAM, "run", "--workers", str(workers)]
    ran = subprocess.run(words, input=text, capture_output=True, timeout=SECONDS, check=False)
    return ran.returncode, ran.stdout, ran.stderr


def main():
    texts = {name: f"omptasks 1\n{body}\n".encode() for name, body in TEXTS.items()}
    wanted = {name: run(text, 1) for name, text in texts.items()}
    kinds = [(name, workers) for workers in WORKERS for name in texts]
    took = dict.fromkeys(kinds, 0.0)
    made = wrong = 0
    while made < RUNS:
        name, workers = kinds[made % len(kinds)]
        began = time.perf_counter()
        try:
            answer = run(texts[name], workers)
        except subprocess.TimeoutExpired:
            answer = "no end"
        took[name, workers] = max(took[name, workers], time.perf_counter() - began)
        made += 1
        if answer != wanted[name] or answer[0] != 0:
            wrong += 1
            print(f"WRONG: {name} on {workers} workers, run {made}: {answer}", flush=True)
    for name in texts:
        longest = max(took[name, workers] for workers in WORKERS)
        print(f"{name}: the longest of its runs took {1000 * longest:.0f} ms")
    print(f"{made} runs, {wrong} wrong")
    sys.exit(wrong > 0 or made == 0)


main()
