#!/usr/bin/env python3
"""Compares the critical paths of spanprof-path and their sums by place with plain programs, on the examples, on random
programs and on programs of a million tasks. The rows of `spanprof_large slack` have to be those of the whole graph
(large_recordings/whole_graph.py), their chain a path of it that costs the span, and the sums by place those that
plain_path.py adds up, which shares nothing with the tools. Of the large programs it tells time and memory.

    checks/agree/large_path.py [COUNT]     COUNT random programs (100)

Build spanprof_large first, or let SPANPROF_LARGE name it.
"""
import os
import random
import re
import subprocess
import sys
import tempfile
from pathlib import Path

TOP = Path(__file__).resolve().parents[2]
sys.path[:0] = [str(TOP / folder) for folder in ("checks/agree/large_recordings", "tools")]
sys.dont_write_bytecode = True

import random_programs as drawn  # noqa: E402
import whole_graph  # noqa: E402
from plain_path import Wrong, check_rows, rows_of, sums_by_place  # noqa: E402
from spanprof.answers import Answers, places  # noqa: E402
from spanprof.client import program  # noqa: E402
from spanprof.command import Fault  # noqa: E402

COMMAND = TOP / "tools" / "spanprof-path"
RUN = """
import resource, subprocess, sys, time
began = time.monotonic()
status = subprocess.call(sys.argv[2:], stdout=open(sys.argv[1], "wb"))
print(time.monotonic() - began, resource.getrusage(resource.RUSAGE_CHILDREN).ru_maxrss)
sys.exit(status)
"""  # in a process of its own: one that is started counts as much memory as whoever starts it
COMMENTS = ("", "  # a.c:1", "# a.c:2, again", " # \"b\"", "  # work 7 { }")


def commented(text, rng):
    """With comments behind some of the lines, and blanks in front."""
    return "".join(" " * rng.choice((0, 0, 3)) + line + rng.choice(COMMENTS) + "\n" for line in text.split("\n"))


def compare(large, file):
    """One program, whose text is in the file."""
    text = file.read_text()
    with open(file, "rb") as given:
        reported = subprocess.run(large + ["slack"], stdin=given, capture_output=True, text=True, check=True).stdout
    costs, starts, chain = rows_of(reported)
    graph = whole_graph.read(text.splitlines())
    check_rows(graph, costs, starts, chain)
    answers = Answers(str(file))
    if [answers.work, answers.span] != [graph.work, graph.span]:
        raise Wrong("%s, and by the whole graph work %d and span %d" % (answers.numbers, graph.work, graph.span))
    wanted = sums_by_place(text, costs, chain)
    found = sorted((one.critical_cost, one.cost, one.critical_segments, one.name) for one in places(answers))
    if found != wanted:
        raise Wrong("by place %s, and not %s" % (found, wanted))


def random_programs(count):
    """Pairs of a name and a text."""
    for number in range(count):
        yield "random program %d" % number, commented(drawn.draw(number), random.Random(number))


def examples():
    for path in sorted((TOP / "examples").rglob("*.tasks")):
        text = path.read_text()
        if re.match(r"(\s|#[^\n]*\n)*omptasks\s+0*1\b", text):
            yield str(path.relative_to(TOP)), text


def compare_all(large, named, folder):
    count, file = 0, folder / "text.tasks"
    for name, text in named:
        file.write_text(text)
        try:
            compare(large, file)
        except (Wrong, Fault, subprocess.CalledProcessError) as wrong:
            raise Wrong("%s: %s" % (name, wrong)) from wrong
        count += 1
    return count


def run(words, file):
    """The seconds that it took, and the most memory of one process in MB; the file takes what it prints."""
    words = [sys.executable, "-c", RUN, file] + words
    done = subprocess.run([str(word) for word in words], capture_output=True, text=True, check=False)
    if done.returncode or done.stderr:
        raise Wrong("%s: status %d, %s" % (words[4], done.returncode, done.stderr.strip()))
    seconds, most = done.stdout.split()
    return float(seconds), int(most) // 1024


def measure_large(name, made, folder):
    """By the command, on a program whose numbers are known."""
    text, (tasks, count, work, span) = made
    file = folder / "large.tasks"
    file.write_text(text)
    took, most = run([COMMAND, file], folder / "told")
    reported = (folder / "told").read_text()
    wanted = "work %d, span %d, parallelism %.1f, " % (work, span, work / span)
    if not reported.startswith(wanted) or " of %d segments on" % count not in reported:
        raise Wrong("%s: %s, and not %s" % (name, reported.split("\n")[0], wanted))
    print("%s: %s tasks, %.1f MB of text; %.2f s, and %d MB for its largest process (measured)" % (
        name, format(tasks, ","), len(text) / 1e6, took, most), flush=True)


def one_line(count):
    """What has no ends of lines is no slower."""
    text, numbers = drawn.independent(count)
    return "omptasks 1 " + text.split("\n", 1)[1].replace("\n", " ") + "# all\n", numbers


def check(large, count):
    with tempfile.TemporaryDirectory(prefix="large_path-") as name:
        folder = Path(name)
        print("%d examples: the same" % compare_all(large, examples(), folder), flush=True)
        compared = compare_all(large, random_programs(count), folder)
        print("%d random programs: the same" % compared, flush=True)
        for name, made in (("nested", drawn.nested(drawn.MILLION)), ("tree", drawn.tree(20)),
                           ("chain", drawn.chain(drawn.MILLION)),
                           ("independent", drawn.independent(drawn.MILLION)),
                           ("one line", one_line(drawn.MILLION // 10))):
            measure_large(name, made, folder)


def main():
    large = program()
    if not large:
        sys.exit("large_path: no spanprof_large")
    os.environ["SPANPROF_LARGE"] = " ".join(large)
    try:
        check(large, int(sys.argv[1]) if len(sys.argv) > 1 else 100)
    except (Wrong, Fault, subprocess.CalledProcessError) as wrong:
        sys.exit("FAILED: %s" % wrong)


if __name__ == "__main__":
    main()
