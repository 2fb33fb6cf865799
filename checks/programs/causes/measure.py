#!/usr/bin/env python3
"""Times a program and the repaired one without the recorder, in turns, and records the first, all in one folder:

    measure.py FOLDER NAME      FOLDER/NAME, FOLDER/NAME.fixed: FOLDER/NAME.json, FOLDER/NAME.spanprof
"""
import json
import os
import sys

from programs import FIXED, kind_of     # which adds tools to the path
from timing import busy_processes, interleaved
from spanprof.command import Fault
from spanprof.record.command import parse, record_as_asked
from spanprof.record.session import Session

THREADS = 4
MEDIAN_RUN = ["--runs", "5"]
BUSY_PROCESSES = {"machine": 2 * THREADS}


def record(path, busy):
    """What spanprof-record keeps of a run, without the diagnosis."""
    words = ["--force", "--threads", str(THREADS), *MEDIAN_RUN, "--out", path, "--", path]
    session = Session(parse(words))
    with session.begun(), busy_processes(busy):
        recorded = record_as_asked(session)
    if recorded.status or not recorded.found:
        raise Fault("%s: status %d, and no recording" % (path, recorded.status))


def measure(folder, name):
    path, busy = os.path.join(folder, name), BUSY_PROCESSES.get(kind_of(name), 0)
    times = interleaved([path], [path + FIXED], THREADS, busy)
    record(path, busy)
    with open(path + ".json", "w", encoding="utf-8") as file:
        json.dump(times._asdict(), file)


if __name__ == "__main__":
    try:
        measure(*sys.argv[1:])
    except Fault as fault:
        sys.exit(str(fault))
