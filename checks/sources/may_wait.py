#!/usr/bin/env python3
"""Compares the numbers of functions that may wait, as crates.txt gives them, with what the check itself prints.

    may_wait.py [CRATE..]    those whose functions may wait, if none is named; status 1 where a number differs
It runs `rt check` in each crate, which takes minutes where nothing is kept in out/.
"""
import pathlib
import re
import subprocess
import sys

ROOT = pathlib.Path(__file__).resolve().parents[2]
CRATES = ("worker_run", "spanprof_command", "spanprof")


def listed(crates_txt, crate):
    """The number that crates.txt gives for a crate: 0 where it gives none. None where the crate is not listed."""
    for line in crates_txt.splitlines():
        words = line.partition(":")[0].split()
        if words[:1] == [crate]:
            given = [word.partition("=")[2] for word in words[1:] if word.startswith("may_wait=")]
            return int(given[0]) if given else 0
    return None


def printed(reported):
    """The number in the line with the check's verdict: 0 where it has none. None where the crate is not proved."""
    verdicts = [line for line in reported.splitlines() if line.startswith("logic=proved ")]
    if not verdicts:
        return None
    counts = re.findall(r"\bmay-wait=(\d+)", verdicts[-1])
    return int(counts[0]) if counts else 0


def checked(crate):
    """What `rt check` prints in a crate."""
    if sys.stderr.isatty():
        print(f"rt check in {crate} ..", file=sys.stderr)
    run = subprocess.run(["rt", "check"], cwd=ROOT / "crates" / crate, text=True, errors="replace",
                         stdout=subprocess.PIPE, stderr=subprocess.STDOUT, check=False)
    return run.stdout


def fault(crate, wanted, found):
    """What is wrong with a crate's number, if anything."""
    if wanted is None:
        return f"{crate}: crates.txt does not list it"
    if found is None:
        return f"{crate}: the check does not prove it"
    if wanted != found:
        return f"{crate}: crates.txt says may_wait={wanted}, and the check may-wait={found}"
    return None


def main(crates):
    crates_txt = (ROOT / "crates.txt").read_text()
    faults = [fault(crate, listed(crates_txt, crate), printed(checked(crate))) for crate in crates]
    for reported in filter(None, faults):
        print(reported)
    if any(faults):
        return 1
    print(f"crates.txt and the check agree on {', '.join(crates)}")
    return 0


if __name__ == "__main__":
    sys.exit(main(sys.argv[1:] or CRATES))
