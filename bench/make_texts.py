#!/usr/bin/env python3
"""Writes the texts that the benches time, each near a limit of the program text: NAME.tasks, and NAME.replay, which has
behind the text a whole run on one worker, in the order of the segments' numbers."""

import argparse
import re
import string
from pathlib import Path

TEXT_BYTES = 4_194_304
TOKEN_BYTES = 1_048_576
TASKS = 4_096
SEGMENTS = 16_384
NESTING = 64
HEADER = "omptasks 1\n"
WORKED = "work 5 task { work 3 } work 2 taskwait work 1\n"


def filled(body):
    """A text of this body and of work, with as many bytes of tokens as there may be."""
    spent = len("".join((HEADER + body).split()))
    return HEADER + body + "work 1234567\n" * ((TOKEN_BYTES - spent) // 11)


def mixed_task(n):
    return "task depend(in: a) depend(out: %s) { work 1 }\n" % ", ".join("n%x" % (31 * n + i) for i in range(31))


def gaps():
    """4 MiB, of which all but a small program is blanks and comments."""
    comment = "# a comment that fills the text\n" + " " * 31 + "\n"
    head = HEADER + WORKED
    return head + comment * ((TEXT_BYTES - len(head)) // len(comment))


def tokens():
    """1 MiB of tokens: work statements with nearly no gaps."""
    statement = "work 1234567890\n"
    return HEADER + statement * ((TOKEN_BYTES - 9) // (len(statement) - 2))


def shared_items():
    """All tasks are siblings, with 32 items each on the same 32 names."""
    kinds = ("in", "inoutset", "inout", "in", "inoutset")
    names = ", ".join("n%d" % n for n in range(32))
    each = ("task depend(%s: %s) { work 1 }\n" % (kinds[n % 5], names) for n in range(TASKS))
    return HEADER + "".join(each)


def own_items():
    """All tasks are siblings, with 32 items each on names that no other has."""
    def task(n):
        return "task depend(out: %s) { work 1 }\n" % ", ".join("n%x" % (32 * n + i) for i in range(32))

    return HEADER + "".join(task(n) for n in range(TASKS))


def waits():
    """As many segments as there may be, without a task."""
    return HEADER + "work 1 taskwait\n" * (SEGMENTS - 1)


def largest():
    """As many tasks, segments and bytes of tokens as there may be together."""
    waits_left = SEGMENTS - 1 - 2 * TASKS
    body = "task depend(in: a, b) depend(out: c) { work 3 }\ntaskwait\n" * TASKS
    return filled(body + "taskwait\n" * (waits_left - TASKS))


def deep():
    """Sixty-four blocks deep, sixty-four times."""
    return HEADER + ("task {\n" * NESTING + "work 1\n" + "}\n" * NESTING) * (TASKS // NESTING)


def fan():
    """Half of the children change one location in any order, half read it."""
    changes = "task depend(inoutset: x) { work 1 }\n" * (TASKS // 2 - 1)
    return HEADER + changes + "task depend(in: x) { work 1 }\n" * (TASKS // 2)


def chain():
    """Each child waits for the one before it."""
    return HEADER + "task depend(inout: x) { work 1 }\n" * TASKS


def readers():
    """All tasks are siblings, with 32 items each on the same names, which all of them only read."""
    names = ", ".join("n%d" % n for n in range(32))
    return HEADER + ("task depend(in: %s) { work 1 }\n" % names) * (TASKS - 1)


def mixed_items():
    """Siblings with 32 items each: one name that all read, and 31 that no other has."""
    return HEADER + "".join(mixed_task(n) for n in range(TASKS - 1))


def fan_of_items():
    """As fan, with 32 items each: 4.2 million edges, each for 32 reasons."""
    names = ", ".join("n%d" % n for n in range(32))
    each = "task depend(%s: %s) { work 1 }\n"
    return HEADER + each % ("inoutset", names) * (TASKS // 2 - 1) + each % ("in", names) * (TASKS // 2)


def all_limits():
    """As many tasks, items, segments and bytes of tokens as there may be together: the siblings of mixed_items, which
    are free to run at once, and then waits."""
    tasks = "".join(mixed_task(n) for n in range(TASKS - 1))
    return filled(tasks + "taskwait\n" * (SEGMENTS - 1 - 2 * (TASKS - 1)))


def all_limits_cut():
    """The same siblings with two waits behind each, so that each is complete before the next begins."""
    return filled("".join(mixed_task(n) + "taskwait\ntaskwait\n" for n in range(TASKS - 1)))


def uneven():
    """Tasks of uneven cost, some of them with children, in groups and between waits; each depends on two others."""
    def task(n):
        head = "task depend(in: c%d) depend(out: c%d) { work %d " % (n * 7 % 61, n % 67, n * 7919 % 1009)
        inner = "task { work %d } task if(0) { work %d } work %d " % (n % 13, n % 5, n % 3)
        after = ("", "taskwait\n", "taskgroup { task { work 9 } work 2 }\n", "work 1\n")[n % 4]
        return head + inner + "}\n" + after

    return HEADER + "".join(task(n) for n in range(1200))


def loops():
    """As many tasks and turns as there may be, said in a few bytes of version 2."""
    return "omptasks 2\nfor i 1 4096 { task depend(in: x[i-1]) depend(out: x[i]) { for j 1 15 { work 1 } } }\n"


def loops_written():
    """The same program in version 1, each task written out."""
    def task(i):
        return "task depend(in: x_%d) depend(out: x_%d) {\n%s}\n" % (i - 1, i, "work 1\n" * 15)

    return HEADER + "".join(task(i) for i in range(1, TASKS + 1))


def recorded():
    """Costs as a recording in nanoseconds has them: each above the 4,096 turns that the mixing kernel makes at most."""
    each = ("task depend(inout: x%d) { work %d }\n" % (n % 64, 4_097 + n * 7919 % 1_000_000) for n in range(TASKS))
    return HEADER + "".join(each)


def task_of(clauses):
    """A task of cost 1 with clauses, each a type and its names; a clause without names is left out."""
    depends = ("depend(%s: %s) " % (kind, ", ".join(names)) for kind, names in clauses if names)
    return "task " + "".join(depends) + "{ work 1 }\n"


def halving():
    """The most kept edges that there may be: the second half of the tasks waits for the first, and so do the halves of
    each half, and so on twelve times, each on a name of its own. So each task waits for all before it."""
    def task(n):
        items = [("inoutset", "in")[n >> level & 1] for level in range(12)]
        names = ["l%d_%d" % (level, n >> level + 1) for level in range(12)]
        return task_of([(kind, [name]) for kind, name in zip(items, names)])

    return HEADER + "".join(task(n) for n in range(TASKS - 1))


def in_parts(parts):
    """Children in so many parts, each of which waits for all parts before it and for nothing in its own."""
    children = TASKS - 1
    begins = [(children * (part + 1) // parts, "n%d" % part) for part in range(parts - 1)]
    each = ((["n%d" % part for part, (begin, _) in enumerate(begins) if n < begin],
             ["n%d" % part for part, (begin, _) in enumerate(begins) if n >= begin]) for n in range(children))
    return HEADER + "".join(task_of([("inoutset", before), ("in", behind)]) for before, behind in each)


def parts4():
    """Four parts."""
    return in_parts(4)


def parts32():
    """As many parts as 32 items for each task can tell apart, which are 33."""
    return in_parts(33)


def fan_waits():
    """As fan, and then waits up to the limit of segments."""
    children = TASKS - 1
    changes = "task depend(inoutset: x) { work 1 }\n" * (children // 2)
    reads = "task depend(in: x) { work 1 }\n" * (children - children // 2)
    return HEADER + changes + reads + "work 1 taskwait\n" * (SEGMENTS - 1 - 2 * children)


def glance():
    """Siblings with 32 items each that are free to run at once. Each has, of twelve pairs of names, the one or the
    other by the bits of its number. No two conflict, which only a look at nearly all of their items tells."""
    def name(n):
        return "p%x" % n

    first, second = (["%s%d" % (letter, bit) for bit in range(12)] for letter in "AB")
    fillers = iter(name(n) for n in range(32 * TASKS))
    lines = [task_of([("in", first)])]
    for room in [20] * 204 + [4]:
        lines.append(task_of([("in", first), ("out", [next(fillers) for _ in range(room)])]))
    lines.append(task_of([("inoutset", second)]))
    for n in range(1, TASKS - len(lines)):
        reads = [first[bit] for bit in range(12) if not n >> bit & 1]
        sets = [second[bit] for bit in range(12) if n >> bit & 1]
        lines.append(task_of([("in", reads), ("inoutset", sets), ("out", [next(fillers) for _ in range(20)])]))
    return HEADER + "".join(lines)


def colliding():
    """32,000 names of 31 bytes that one hash of multiplications takes to one number, without a key made from the text:
    after this prefix a factor is 0."""
    letters = string.ascii_letters + string.digits + "_"

    def name(n):
        return "Kuxo0343OZaYBI_9gQiE18r" + "".join(letters[n // 63 ** place % 63] for place in range(8))

    return HEADER + "".join(task_of([("out", [name(32 * n + i) for i in range(32)])]) for n in range(1000))


TEXTS = (
    gaps, tokens, shared_items, own_items, readers, mixed_items, fan_of_items, all_limits, all_limits_cut, waits,
    largest, deep, fan, chain, uneven, loops, loops_written, recorded, halving, parts4, parts32, fan_waits, glance,
    colliding,
)


def segments(text):
    """A segment, two more for each task and one for each wait and group."""
    if text == loops():
        text = loops_written()
    words = re.findall(r"\w+", re.sub(r"#.*", "", text))
    return 1 + 2 * words.count("task") + words.count("taskwait") + words.count("taskgroup")


def run_in_order(text):
    return "".join("start 0 %d\nfinish 0 %d\n" % (s, s) for s in range(segments(text)))


def main(words=None):
    parser = argparse.ArgumentParser(description=__doc__)
    parser.add_argument("folder", type=Path, help="where the texts go; it is made where there is none")
    folder = parser.parse_args(words).folder
    folder.mkdir(parents=True, exist_ok=True)
    for make in TEXTS:
        text = make()
        (folder / (make.__name__ + ".tasks")).write_text(text)
        (folder / (make.__name__ + ".replay")).write_text(text + "\n---\n" + run_in_order(text))


if __name__ == "__main__":
    main()
