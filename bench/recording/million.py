#!/usr/bin/env python3
"""Processor time and memory of a recording of many tasks and of what is made of it: million.py FOLDER SHAPE=NUMBER ..;
million.sh calls it, with its `program` in the folder."""
import os
import subprocess
import sys
import tempfile

from measure import row, table

TOOLS = os.path.join(os.path.dirname(os.path.abspath(__file__)), "..", "..", "tools")
WHOLE, TIMED = {"SPANPROF_WHOLE": "1", "SPANPROF_TIMES": "1"}, {"SPANPROF_TIMES": "1"}


def tool(name):
    return os.path.join(TOOLS, name)


def ways(program, out):
    """What is run, in this order, with its variables."""
    recording, made = out + ".spanprof", out + "-made"
    yield "the program alone", program, {}
    yield "the same, recorded, with its diagnosis", [tool("spanprof-record"), "--out", out, "--", *program], {}
    for name, variables in (("the text of the program", WHOLE), ("that of the region", {}), ("with times", TIMED)):
        yield name, [tool("openmp_recorder/convert_log"), os.path.join(recording, "log"), made], variables
    yield "the diagnosis", [tool("spanprof-report"), "--json", recording], {}
    yield "the page", [tool("spanprof-report"), "-o", out + ".html", recording], {}
    yield "the path", [tool("spanprof-path"), recording], {}


def measured(words, variables):
    """Seconds of all processes, and megabytes."""
    child = "import resource, subprocess, sys\nsubprocess.run(sys.argv[1:], check=True, stdout=2)\n" \
        "use = resource.getrusage(resource.RUSAGE_CHILDREN)\nprint(use.ru_utime + use.ru_stime, use.ru_maxrss)\n"
    done = subprocess.run([sys.executable, "-c", child, *words], env={**os.environ, **variables}, check=True, text=True,
                          stdout=subprocess.PIPE, stderr=subprocess.DEVNULL)
    seconds, kilobytes = map(float, done.stdout.split())
    return seconds, kilobytes * 1024 / 1e6


def main(folder, *asked):
    for one in asked:
        print(table(one, "Processor time, s", "MB"))
        with tempfile.TemporaryDirectory(dir=folder) as scratch:
            program = [os.path.join(folder, "program"), *one.split("=")]
            for name, words, variables in ways(program, os.path.join(scratch, "mine")):
                seconds, megabytes = measured(words, variables)
                print(row([name, "%.2f" % seconds, "%.0f" % megabytes]), flush=True)
        print()


if __name__ == "__main__":
    main(*sys.argv[1:])
