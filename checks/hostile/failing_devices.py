#!/usr/bin/env python3
"""Runs each command on inputs that cannot be read and outputs that cannot be written, and on a pipe that gives and
takes few bytes at a time.

    failing_devices.py [PROGRAM]          the ten commands of crates/spanprof/out/spanprof, or of this program
    failing_devices.py large [PROGRAM]    crates/spanprof_large/out/spanprof_large, or this program

A read that fails is `error: read fault` with status 3, a write that fails has status 3, and a slow pipe changes
nothing. The exit status is 1 where an answer was wrong.
"""

import os
import subprocess
import sys
import threading
from pathlib import Path

TOP = Path(__file__).resolve().parents[2]
READ_FAULT = b"error: read fault\n"

WORKED = b"omptasks 1\nwork 5 task { work 3 } work 2 taskwait work 1\n"
EVENTS = b"---\nstart 0 0 finish 0 0 start 0 2 finish 0 2 start 1 1 finish 1 1 start 0 3 finish 0 3\n"
CLAIM = b"---\nend 9 start 0 0 start 1 5 start 2 5 start 3 8 chain 0 1 3\n"
TIMES = b"---\ntimes 2 0 14\n0 0 0 5\n1 0 6 9\n2 0 9 11\n3 1 12 13\n"
WORDS = ("span", "show", "slack", "greedy --threads 2", "curve --upto 2", "whatif 2=4", "certify", "run --workers 2")


def run(words, **how):
    ran = subprocess.run(words, stderr=subprocess.PIPE, timeout=60, check=False, **how)
    return ran.returncode, ran.stdout, ran.stderr


def without(words, text, descriptor):
    """With this descriptor closed."""
    script = f'exec "$@" {descriptor}{"<" if descriptor == 0 else ">"}&-'
    ran = subprocess.run(["sh", "-c", script, "", *words], input=text, capture_output=True, timeout=60,
                         check=False)
    return ran.returncode, ran.stdout, ran.stderr


def to_broken_pipe(words, text):
    reading, writing = os.pipe()
    os.close(reading)
    try:
        return run(words, input=text, stdout=writing)
    finally:
        os.close(writing)


def byte_by_byte(words, text):
    """Gives one byte at a time, and takes what comes."""
    ran = subprocess.Popen(words, stdin=subprocess.PIPE, stdout=subprocess.PIPE, stderr=subprocess.PIPE,
                           bufsize=0)

    def give():
        for byte in text:
            ran.stdin.write(bytes([byte]))
        ran.stdin.close()

    giver = threading.Thread(target=give)
    giver.start()
    taken = b""
    while some := os.read(ran.stdout.fileno(), 7):
        taken += some
    giver.join()
    return ran.wait(60), taken, ran.stderr.read()


def try_command(words, text):
    full = run(words, input=text, stdout=subprocess.PIPE)
    wanted = {"as ever": (full, (0, full[1], b""))}
    with open("/dev/full", "wb") as device:
        wanted["a full device"] = (run(words, input=text, stdout=device), (3, None, b""))
    wanted["a closed output"] = (without(words, text, 1), (3, b"", b""))
    wanted["a broken pipe"] = (to_broken_pipe(words, text), (3, None, b""))
    wanted["a closed input"] = (without(words, text, 0), (3, READ_FAULT, b""))
    folder = os.open("/", os.O_RDONLY)
    wanted["a folder as input"] = (run(words, stdin=folder, stdout=subprocess.PIPE), (3, READ_FAULT, b""))
    os.close(folder)
    wanted["a byte at a time"] = (byte_by_byte(words, text), full)
    wrong = {what: answer for what, (answer, right) in wanted.items() if answer != right}
    for what, answer in wrong.items():
        print(f"WRONG: {' '.join(map(str, words))} with {what}: {answer}")
    return len(wanted), len(wrong)


def commands(program):
    """The ten, each with an input that it accepts."""
    certificate = run([program, "certify"], input=WORKED, stdout=subprocess.PIPE)[1]
    yield from (([program, *words.split()], WORKED) for words in WORDS)
    yield [program, "check"], certificate
    yield [program, "replay"], WORKED + EVENTS


def large(program):
    yield [program], WORKED
    yield [program, "--upto", "2"], WORKED
    yield from (([program, word], WORKED) for word in ("show", "certify"))
    yield from (([program, "account", *words], WORKED + TIMES) for words in ([], ["--rows"], ["--path"]))
    yield [program, "replay"], WORKED + EVENTS
    yield [program, "whatif", "--listed"], WORKED + b"---\n2=4\n1=5\n"
    yield [program, "check"], WORKED + CLAIM
    yield [program, "relaxation"], WORKED + b"---\n" + WORKED
    yield from (([program, "places"], WORKED + b"---\n0 1 0 0\n" + more) for more in (b"", TIMES))


KINDS = {"commands": (commands, "spanprof"), "large": (large, "spanprof_large")}


def main(words):
    calls, name = KINDS[words.pop(0) if words and words[0] in KINDS else "commands"]
    program = words[0] if words else str(TOP / "crates" / name / "out" / name)
    tries = [try_command(*call) for call in calls(program)]
    made, wrong = (sum(numbers) for numbers in zip(*tries))
    print(f"{made} runs of {len(tries)} commands, {wrong} wrong")
    sys.exit(wrong > 0)


main(sys.argv[1:])
