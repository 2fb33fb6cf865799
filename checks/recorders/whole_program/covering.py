#!/usr/bin/env python3
"""Records the programs of examples/openmp and checks/recorders/openmp_cases as one text each, and holds what the head
says that it covers.

    covering.py [NAME ..]    these programs, or all
A text that covers less than 95 per cent says so otherwise: `at most`, where recording ended before the program. The
status is 0 where none is less.
"""
import glob
import os
import sys
import tempfile

HERE = os.path.dirname(os.path.abspath(__file__))
TOP = os.path.dirname(os.path.dirname(os.path.dirname(HERE)))
CASES = os.path.join(os.path.dirname(HERE), "openmp_cases")
sys.path.append(CASES)
import cases  # noqa: E402
from case import is_of_gcc, needed_version, wants  # noqa: E402
from spanprof.head import read_head  # noqa: E402

COVERED = 95.0
WORDS = {"cholesky": ["6"], "fibonacci": ["27", "12"], "merge_sort": ["60000"], "merge_sort_split": ["60000"],
         "n_queens": ["8", "2"], "sparse_lu": ["6"], "strassen": ["256"], "taskloop": ["20000", "8"]}


def judged(text):
    """What is wrong with a text's head; empty where nothing is."""
    head = read_head(text)
    if not head.whole:
        return "it is not the whole program's"
    if not head.thread_time:
        return "it does not say what it covers"
    covered = 100 * head.covered / head.thread_time
    return "" if head.covers_at_most or covered >= COVERED else "it covers %.1f %%" % covered


def texts(files):
    """Those of the program and of its child processes."""
    return {name: text for name, text in files.items() if name.endswith(".tasks") and ".inout." not in name}


def faults(source, version, folder):
    with open(source, encoding="utf-8") as file:
        wanted = wants(file.read())
    name = os.path.basename(source)[:-2]
    if int(version.number) < needed_version(wanted):
        return []
    program = os.path.join(folder, name)
    cases.build(source, program, is_of_gcc(wanted), version)
    settings = {"LD_PRELOAD": version.runtime} if is_of_gcc(wanted) else {}
    settings.update(words.split("=", 1) for words in wanted["env"] if "FOLD" not in words)
    left = cases.run([program] + WORDS.get(name, []), folder, dict(settings, SPANPROF_WHOLE="1"))
    found = texts(left.files)
    out = ["%s, %s" % (text, judged(words)) for text, words in found.items() if judged(words)]
    return out if found else ["there is no text; it said: " + left.said.strip()]


def main(names):
    sources = sorted(glob.glob(os.path.join(TOP, "examples/openmp/*.c")) + glob.glob(os.path.join(CASES, "*.c")))
    version, wrong = cases.asked("")[0], 0
    for source in sources:
        name = os.path.basename(source)[:-2]
        if names and name not in names:
            continue
        with tempfile.TemporaryDirectory() as folder:
            found = faults(source, version, folder)
        print("%-6s %s" % ("WRONG" if found else "ok", name), flush=True)
        print("".join("  %s\n" % fault for fault in found), end="", flush=True)
        wrong += bool(found)
    print("%d wrong" % wrong)
    return 1 if wrong else 0


if __name__ == "__main__":
    sys.exit(main(sys.argv[1:]))
