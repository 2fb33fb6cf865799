#!/usr/bin/env python3
"""A text at the limits of tasks and segments, with as many places, and its run on four workers: large_text.py FOLDER
writes large.tasks and large.timed. The tasks are 64 rows; each has an item of its row, and one of its
column."""
import os
import sys

TASKS, ROW, WORKERS = 4096, 64, 4
PLACE = "a_file_with_a_rather_long_name.cpp:%d"


def cost_of(task):
    return 100000 + task * 7919 % 400000


def text():
    lines = ['# recorded: {"program": "large", "date": "2026-01-02T03:04:05Z", "threads": %d, "clock": "wall", '
             '"unit": "ns"}' % WORKERS, "omptasks 1", "work 7"]
    for i in range(TASKS):
        row, column = divmod(i, ROW)
        lines += ["task depend(inout: r%d) depend(inout: c%d) {  # %s" % (row, column, PLACE % (10 + i)),
                  "  work %d" % cost_of(i), "}", "work %d" % (1 + i % 3)]
    return "\n".join(lines) + "\n"


def run():
    """Segment, worker, start and end, in the order of the run: the root, and then task after task, one row by one
    worker. Segment 2i + 1 is task i's."""
    now = 0
    for s in [0] + [2 * i + 2 for i in range(TASKS)]:
        yield s, 0, now, now + 7
        now += 7
    for i in range(TASKS):
        yield 2 * i + 1, i // ROW % WORKERS, now, now + cost_of(i)
        now += cost_of(i)


def main(folder):
    program, rows = text(), list(run())
    times = "times %d 0 %d\n" % (WORKERS, rows[-1][3]) + "".join("%d %d %d %d\n" % row for row in rows)
    files = {"tasks": program, "timed": program + "---\n" + times}
    for ending, words in files.items():
        with open(os.path.join(folder, "large." + ending), "w", encoding="utf-8") as file:
            file.write(words)


if __name__ == "__main__":
    main(sys.argv[1])
