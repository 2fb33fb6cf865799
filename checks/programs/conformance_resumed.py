#!/usr/bin/env python3
"""Kills a test of tools/conformance, interrupts it, and has it end, as conformance.sh does with SPANPROF set. Whatever
stops it, what was done stays, and the report at the end is that of the whole. Needs gcc.
"""
import os
import pathlib
import signal
import subprocess
import sys
import tempfile
import time

TESTER = pathlib.Path(__file__).resolve().parents[2] / "tools" / "spanprof-conformance"
PROGRAMS = 40
WORDS = ["run", "--cc", "gcc", "--programs", str(PROGRAMS),
         *"--tasks tied --threads 2 --runs 1 --seconds 3600 --match taskwait_child".split()]
PATIENCE = 120  # seconds until a program has been tried


def start(folder):
    return subprocess.Popen([sys.executable, TESTER, *WORDS], stdout=subprocess.PIPE, stderr=subprocess.PIPE, text=True,
                            cwd=folder, env={**os.environ, "TMPDIR": str(folder)})


def kept(folder):
    """How many programs the state has."""
    return sum(path.read_bytes().count(b"\n") for path in folder.glob("conformance-*.jsonl"))


def stop(folder, count, how):
    """Stops a test after so many programs; answers its status and what it printed."""
    with start(folder) as process:
        end = time.monotonic() + PATIENCE
        while kept(folder) < count and process.poll() is None and time.monotonic() < end:
            time.sleep(0.02)
        process.send_signal(how)
        printed, said = process.communicate()
    return process.returncode, printed + said


def faults(folder):
    """What is wrong, as lines."""
    stop(folder, 3, signal.SIGKILL)
    killed = kept(folder)
    status, printed = stop(folder, killed + 3, signal.SIGINT)
    if status != 130 or "the same command goes on" not in printed or "| all | 2 |" not in printed:
        yield f"an interrupted test ends with status {status}: {printed}"
    if not 3 <= killed < kept(folder) <= PROGRAMS:
        yield f"{killed} and then {kept(folder)} programs are kept"
    with start(folder) as process:
        printed, said = process.communicate()
    if process.returncode or f"| all | 2 | {PROGRAMS + 1} | {PROGRAMS + 1} |" not in printed:
        yield f"the last report is not that of {PROGRAMS + 1} programs: {printed}{said}"
    if kept(folder):
        yield "the state is there though the test is whole"


def main():
    with tempfile.TemporaryDirectory() as folder:
        wrong = list(faults(pathlib.Path(folder)))
    print("\n".join([*wrong, f"{len(wrong)} wrong in a test that was stopped twice"]))
    return bool(wrong)


if __name__ == "__main__":
    sys.exit(main())
