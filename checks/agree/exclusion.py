#!/usr/bin/env python3
"""Compares spanprof_exclusion with the conformance tester's plain search, on random claims and events: tasks of several
segments in random interleavings, now and then with events dropped, doubled or exchanged, and texts with a wrong line.

    checks/agree/exclusion.py [COUNT [PROGRAM]]   COUNT random logs (1000); the built program if none is given

Build it first: the gate does, or tools/prove_program.sh spanprof_exclusion.
"""
import collections
import random
import subprocess
import sys
from pathlib import Path

TOP = Path(__file__).resolve().parents[2]
sys.path.insert(0, str(TOP / "tools"))
from spanprof.conformance.judge.exclusion import Claim, first_overlap, log_text  # noqa: E402
from spanprof.conformance.judge.segments import Made  # noqa: E402

BUILT = TOP / "crates/spanprof_exclusion/out/spanprof_exclusion"
WRONG = ("start 0", "start 0 1 2", "begin 0 1", "exclusive 0 0 1", "exclude 0 0 1 1", "start x 1", "finish 0 -1",
         "start 0 4294967296", "exclusive 0 0 1 1 1", "start 4294967296 1")
BLANK = ("", "  ", "\t")


class Wrong(Exception):
    pass


def draw_tasks(rng):
    """Tasks of a few parents, with one to three segments each and up to two locations."""
    parents = [Made(number, None, -1, "", (), "", False) for number in range(rng.randint(1, 2))]
    tasks, segment = [], 1
    for number in range(rng.randint(1, 6)):
        task = Made(10 + number, rng.choice(parents), 0, "", (), "", False)
        count = rng.choice((1, 1, 2, 3))
        task.segments = list(range(segment, segment + count))
        task.exclusive = frozenset(rng.sample("abc", rng.choice((0, 1, 1, 2))))
        segment += count + rng.randint(0, 1)
        tasks.append(task)
    return tasks


def draw_events(rng, tasks):
    """The segments of each task in order, with few others in between."""
    left = [[(word, segment) for segment in task.segments for word in ("start", "finish")] for task in tasks]
    events, at = [], 0
    while any(left):
        if rng.random() < 0.15 or not left[at]:
            at = rng.choice([place for place, rest in enumerate(left) if rest])
        word, segment = left[at].pop(0)
        events.append(f"{word} {rng.randrange(4)} {segment}")
    for _ in range(rng.choice((0, 0, 1, 2))):
        spoil(rng, events)
    return events


def spoil(rng, events):
    """An event is dropped, doubled or exchanged with another one."""
    one, other = rng.randrange(len(events)), rng.randrange(len(events))
    how = rng.randrange(3)
    if how == 0 and len(events) > 1:
        del events[one]
    elif how == 1:
        events.insert(other, events[one])
    else:
        events[one], events[other] = events[other], events[one]


def with_lines(rng, text):
    """The text, now and then with a wrong line; and where the first such line is."""
    lines = text.split("\n")
    for _ in range(rng.choice((0, 0, 1))):
        lines.insert(rng.randrange(len(lines)), rng.choice(BLANK))
    if rng.random() < 0.8:
        return "\n".join(lines), None
    place = rng.randrange(len(lines))
    lines.insert(place, rng.choice(WRONG))
    return "\n".join(lines), place


def wanted(claims, events, wrong):
    if wrong is not None:
        return 1, f"error: line {wrong}: BadForm\n"
    found = first_overlap(claims, events)
    if found:
        return 1, f"overlap {found.event} {found.begins} {found.under_way}\n"
    return 0, "apart\n"


def compare(rng, program):
    """What both say of one log."""
    tasks = draw_tasks(rng)
    claims = [Claim(task, location) for task in tasks for location in sorted(task.exclusive)]
    rng.shuffle(claims)
    events = draw_events(rng, tasks)
    text, wrong = with_lines(rng, log_text(claims, events))
    done = subprocess.run([program], input=text, capture_output=True, text=True, check=False)
    expected = wanted(claims, events, wrong)
    if (done.returncode, done.stdout) != expected:
        raise Wrong(f"{text}\n{program} says {done.returncode}, {done.stdout!r} and not {expected}")
    return expected[1].split()[0]


def main():
    count = int(sys.argv[1]) if len(sys.argv) > 1 else 1000
    program = sys.argv[2] if len(sys.argv) > 2 else str(BUILT)
    rng, reported = random.Random(1), collections.Counter()
    try:
        for _ in range(count):
            reported[compare(rng, program)] += 1
    except (OSError, Wrong) as wrong:
        print(wrong)
        return 1
    print(f"{count} logs: {reported['apart']} apart, {reported['overlap']} with an overlap, "
          f"{reported['error:']} with a wrong line")
    return 0 if min(reported.values()) > 0 and len(reported) == 3 else 1


if __name__ == "__main__":
    sys.exit(main())
