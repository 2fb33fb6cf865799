"""What a case asks for, read from the comments at the head of its program, and what a run left of it.

    // compiler: gcc              in the place of clang; the program then runs on LLVM's runtime in the place of gcc's
    // runtime: llvm              what it asks for is LLVM's alone, or by `gnu` gcc's; others are tried on gcc's runtime
    //                            too, built by gcc
    // preload: recorder          the recorder's library is loaded first, as for a script, on LLVM's runtime too
    // needs: LLVM N              that version or a later one, to compile it
    // clock: counted             costs by a clock that counts its readings (clock/counted_clock.c)
    // measured: WHAT             it compares measured times, and so gets three tries
    // env: NAME=VALUE            a variable of the run
    // status: N                  its exit status, 0 where none is named; negative for a signal
    // old: FILE ..               files that lie there before
    // again: NAME=VALUE          a second run with this too
    // says: PATTERN              on standard error of the first run
    // text: PATTERN              in out.tasks; `no text:` nowhere in it
    // in FILE: PATTERN           in this file, of which each line has its own beginning and end
    // file: NAME ..              which must lie there, or by `no file:` after the first run must not
    // expect: WHAT OP NUMBER     work, span, tasks, parallelism of out.tasks; covers (percent), `most held lock`,
    //                            affected and `off the processor` of its head
"""
import fnmatch
import operator
import os
import re
import sys
from collections import defaultdict
from dataclasses import dataclass, field

sys.path.append(os.path.join(os.path.dirname(os.path.abspath(__file__)), "..", "..", "..", "tools"))
from spanprof.head import read_head  # noqa: E402

KEYS = ("compiler", "runtime", "preload", "needs", "clock", "measured", "env", "status", "old", "again", "says", "text",
        "no text", "file", "no file", "expect")
COMPARE = {"<=": operator.le, ">=": operator.ge, "=": operator.eq}


@dataclass
class Left:
    """What a run left: its status, its standard error, the files by name, and the numbers of spanprof."""
    status: int
    said: str
    files: dict
    numbers: dict = field(default_factory=dict)
    refused: list = field(default_factory=list)  # runs that spanprof refuses, with why


def wants(source):
    """The lines of a program's head by their keys."""
    out = defaultdict(list)
    for line in source.split("\n"):
        found = re.match(r"// (%s|in \S+): (.*)" % "|".join(KEYS), line)
        if found and found[1].startswith("in "):
            out["in"].append((found[1][3:], found[2]))
        elif found:
            out[found[1]].append(found[2])
        elif not line.startswith("//"):
            break
    return out


def is_of_gcc(wanted):
    return wanted["compiler"] == ["gcc"]


def is_counted(wanted):
    """Whether costs are by the clock that counts its readings."""
    return wanted["clock"] == ["counted"]


def only_on(wanted):
    """The one runtime that it says something of, or nothing."""
    return wanted["runtime"][0] if wanted["runtime"] else ""


def is_preloaded(wanted):
    """Whether the recorder is loaded before the runtime whichever it is."""
    return wanted["preload"] == ["recorder"]


def needed_version(wanted):
    return int(wanted["needs"][0].split()[1]) if wanted["needs"] else 0


def has_file(left, pattern):
    return any(fnmatch.fnmatchcase(name, pattern) for name in left.files)


def first_faults(wanted, left):
    """What is wrong after the first run."""
    status = int(wanted["status"][0]) if wanted["status"] else 0
    if left.status != status:
        yield "status %d, and not %d" % (left.status, status)
    for pattern in wanted["says"]:
        if not re.search(pattern, left.said):
            yield "standard error has no /%s/" % pattern
    for name in " ".join(wanted["no file"]).split():
        if has_file(left, name):
            yield "%s is there" % name


def number_fault(words, numbers):
    what, compare, number = words.rsplit(" ", 2)
    if what not in numbers:
        return "there is no %s" % what
    if not COMPARE[compare](numbers[what], float(number)):
        return "%s is %s, and not %s %s" % (what, numbers[what], compare, number)
    return ""


def last_faults(wanted, left):
    """What is wrong with what the last run left."""
    text = left.files.get("out.tasks", "")
    for pattern in wanted["text"]:
        if not re.search(pattern, text):
            yield "out.tasks has no /%s/" % pattern
    for pattern in wanted["no text"]:
        if re.search(pattern, text):
            yield "out.tasks has /%s/" % pattern
    for name, pattern in wanted["in"]:
        if not re.search(pattern, left.files.get(name, ""), re.MULTILINE):
            yield "%s has no /%s/" % (name, pattern)
    for name in " ".join(wanted["file"]).split():
        if not has_file(left, name):
            yield "%s is missing" % name
    yield from filter(None, (number_fault(words, left.numbers) for words in wanted["expect"]))
    yield from left.refused


def count_tasks(text):
    """The program's tasks, without those that stand for the code of a region's thread."""
    lines = (line.strip() for line in text.split("\n"))
    return sum(line.startswith("task ") and "# one of the region's threads" not in line for line in lines)


def numbers_of_head(text):
    """Numbers of the head's lines that tell what a text says of its program, by the names of the lines."""
    head = read_head(text)
    found = {"covers": 100 * head.covered / head.thread_time if head.thread_time else None,
             "most held lock": head.most_held, "affected": head.clocks_differ.get("affected"),
             "off the processor": head.clocks_differ.get("by", head.taken_off.get("by"))}
    return {name: number for name, number in found.items() if number is not None}
