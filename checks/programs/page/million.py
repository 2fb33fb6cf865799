#!/usr/bin/env python3
"""A recording of a million tasks, as a loop that creates them makes it, with its times: million.py FOLDER [TASKS]
writes million.tasks and million.times. Each task costs half a microsecond or so, and runs on one of four threads."""
import os
import sys

TASKS, THREADS = 1000000, 4
HEAD = """# recorded: {"program": "million", "date": "2026-01-02T03:04:05Z", "threads": %d, "clock": "wall", "unit": "ns"}
# region: {"at": "million.c:7", "number": 1, "of": 1}
# elapsed: %d
omptasks 1
work 900
"""
PLACES = ("million.c:9", "million.c:11", "million.c:14")


def cost_of(task):
    return 300 + task * 7919 % 400


def place_of(task):
    return PLACES[task * len(PLACES) // TASKS if task < TASKS else 0]


def write_text(file, tasks, elapsed):
    file.write(HEAD % (THREADS, elapsed))
    for i in range(tasks):
        file.write("task {  # %s\n  work %d\n}\nwork 120\n" % (place_of(i), cost_of(i)))
    file.write("taskwait  # million.c:17\nwork 50\n")


def times(tasks):
    """Segment 2i + 1 is task i's; the root creates on thread 0, the others run what it has created."""
    yield 0, 0, 0, 900
    now, free = 900, [0] * THREADS
    for i in range(tasks):
        yield 2 * i + 2, 0, now, now + 120
        thread = 1 + i % (THREADS - 1)
        start = max(free[thread], now)
        free[thread] = start + cost_of(i)
        yield 2 * i + 1, thread, start, free[thread]
        now += 120
    last = max(free + [now])
    yield 2 * tasks + 1, 0, last, last + 50


def main(words):
    folder, tasks = words[0], int(words[1]) if len(words) > 1 else TASKS
    last = 0
    with open(os.path.join(folder, "million.times"), "w", encoding="utf-8") as file:
        file.write("segment,thread,start_ns,end_ns\n")
        for row in times(tasks):
            file.write("%d,%d,%d,%d\n" % row)
            last = max(last, row[3])
    with open(os.path.join(folder, "million.tasks"), "w", encoding="utf-8") as file:
        write_text(file, tasks, last + 1000)


if __name__ == "__main__":
    main(sys.argv[1:])
