#!/usr/bin/env python3
"""Records programs that are slow for a known cause, by each clock, and holds the account of each run against it.

    judge.py CAUSES [shares]       the program of checks/recorders/recorded_accounts/causes.c
`shares` judges on a quiet machine which cause is the largest. Measured times are compared then, so each is recorded
again, three times at most, where its account is not as it has to be. The status is 0 where none is wrong.
"""
import json
import os
import subprocess
import sys
import tempfile

from judging import EXPECTED, faults

TOP = os.path.dirname(os.path.dirname(os.path.dirname(os.path.dirname(os.path.abspath(__file__)))))
RECORD = os.path.join(TOP, "tools", "spanprof-record")
TRIES = 3


def recorded(program, name, clock, folder):
    out = os.path.join(folder, name)
    options = ["--force", "--out", out, "--unit", "us", "--threads", "4", "--json", out + ".json"]
    asked = ["--clock", clock] if clock != "own" else []
    words = [RECORD, *options, *asked, "--", program, name]
    done = subprocess.run(words, capture_output=True, text=True, errors="replace", check=False)
    if done.returncode:
        sys.exit("%s: status %d\n%s" % (name, done.returncode, done.stderr))
    with open(out + ".json", encoding="utf-8") as file:
        return json.load(file)


def in_words(account):
    whole = account["threads"] * account["elapsed"]
    return ", ".join("%s %.0f %%" % (name, 100 * part / whole) for name, part in account["parts"].items() if part)


def judge(program, name, clock, folder, is_quiet):
    wrong = []
    for _ in range(TRIES if is_quiet else 1):
        if wrong:
            print("again %s %s: %s" % (name, clock, "; ".join(wrong)), flush=True)
        reported = recorded(program, name, clock, folder)
        wrong = faults(name, reported, is_quiet)
        if not wrong:
            break
    print("%-5s %-9s %-4s %s" % ("WRONG" if wrong else "ok", name, clock,
                                 in_words(reported["account"]) if reported["account"] else ""), flush=True)
    for fault in wrong:
        print("      " + fault, flush=True)
    return bool(wrong)


def main(words):
    program, is_quiet = os.path.abspath(words[0]), words[1:] == ["shares"]
    with tempfile.TemporaryDirectory() as folder:
        wrong = [judge(program, name, clock, folder, is_quiet) for name in EXPECTED for clock in ("own", "wall", "cpu")]
    print("%d accounts, %d wrong" % (len(wrong), sum(wrong)))
    sys.exit(any(wrong))


if __name__ == "__main__":
    main(sys.argv[1:])
