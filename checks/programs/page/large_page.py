#!/usr/bin/env python3
"""The page of a recording of a million tasks: made in time, small, and opened at once.

    large_page.py FOLDER    writes million.tasks, million.times and million.html there
SPANPROF and SPANPROF_LARGE name the programs. Status 1 where something is wrong, 2 where there is no browser.
"""
import os
import resource
import subprocess
import sys
import time

from devtools import Browser, find_browser
from driving import UNFOLD
from million import main as write_million
from visit import LOOKS, look_at, looks

TOP = os.path.dirname(os.path.dirname(os.path.dirname(os.path.dirname(os.path.abspath(__file__)))))
REPORT = os.path.join(TOP, "tools", "spanprof-report")
MOST_BYTES, MOST_SECONDS, MOST_TO_OPEN = 5000000, 30, 2
PARTS = ("summary", "speedup", "timeline", "places", "numbers")


def processor_time():
    """Of the processes that this one has waited for, and of theirs, in seconds."""
    used = resource.getrusage(resource.RUSAGE_CHILDREN)
    return used.ru_utime + used.ru_stime


def made(text, page):
    """Whether the page was made, and in how many seconds of processor time."""
    begun = processor_time()
    done = subprocess.run([REPORT, text, "-o", page], check=False)
    return done.returncode == 0, processor_time() - begun


def faults_in_the_browser(page):
    with Browser(find_browser()) as browser:
        tab = browser.page()
        begun = time.monotonic()
        tab.open(page)
        tab.settled()
        took = time.monotonic() - begun
        print("opened in %.2f seconds" % took)
        if took > MOST_TO_OPEN:
            yield "opened in %.1f seconds, and not in %d" % (took, MOST_TO_OPEN)
        yield from tab.complaints()
        for name in PARTS:
            if not tab.evaluate("!!document.getElementById('%s')" % name):
                yield "there is no part %s" % name
        tab.evaluate(UNFOLD)
        tab.settled()
        if not tab.evaluate("!!document.querySelector('.lanes path')"):
            yield "the timeline is empty"
        tab.close()
        for look in LOOKS:
            yield from look_at(browser, page, look, looks())


def main(folder):
    text, page = (os.path.join(folder, "million" + end) for end in (".tasks", ".html"))
    write_million([folder])
    is_made, seconds = made(text, page)
    if not is_made:
        sys.exit("there is no page")
    size = os.path.getsize(page)
    print("a page of %d bytes in %.1f seconds of processor time" % (size, seconds))
    faults = ["%d bytes, and not %d" % (size, MOST_BYTES)] if size > MOST_BYTES else []
    if seconds > MOST_SECONDS:
        faults.append("made in %.0f seconds of processor time, and not in %d" % (seconds, MOST_SECONDS))
    if find_browser():
        faults += faults_in_the_browser(page)
    print("\n".join(faults or ["a million tasks: right"]))
    sys.exit(1 if faults else 0 if find_browser() else 2)


if __name__ == "__main__":
    main(sys.argv[1])
