"""Regions as lists of phases, of what the oracle wrote and of recorded texts, each in a form that two runs agree on.

A region is a list of phases, and a phase the bodies of its threads, of which those without tasks do not count. In the
form that is compared a body is a tuple of its steps, without costs and lines. Names of dependences count among siblings
alone, so each body has its own, numbered in the order of their mention. `out` conflicts as `inout` does, and is it.
"""
import os
import re
import sys

sys.path.append(os.path.join(os.path.dirname(os.path.dirname(os.path.abspath(__file__))), "openmp_regions"))
import recorded  # noqa: E402
from structure import Node, has_tasks, nodes  # noqa: E402


def steps(body):
    """A body as it is compared."""
    names = {}

    def item(kind, name):
        return ("inout" if kind == "out" else kind), names.setdefault(name, len(names))

    def step(node):
        if node.kind != "task":
            return (node.kind, inside(node.body))
        return (node.kind, node.undeferred, tuple(item(*it) for it in node.depend), steps(node.body))

    def inside(of):
        return tuple(step(node) for node in nodes(of))
    return inside(body)


def phase(bodies):
    return tuple(sorted(steps(body) for body in bodies if has_tasks(body)))


def region(phases):
    return tuple(it for it in (phase(bodies) for bodies in phases) if it)


def of_text(text):
    """The region of a recorded text, and its remarks."""
    read = recorded.read(text)
    return region(read.phases), read.remarks


def end_group_of_earlier_part(body):
    """A barrier ends what the group held before it; what the part holds so far is in the group too."""
    body[:] = [Node("taskgroup", 0, list(body))]


def parts(lines):
    """The bodies of a region's parts, by phase."""
    by_phase = {}
    opened = None
    for line in lines:
        found = re.fullmatch(r"part (\d+)", line)
        if found:
            opened = [[]]
            by_phase.setdefault(int(found.group(1)), []).append(opened[0])
        elif line == "}" and len(opened) == 1:
            end_group_of_earlier_part(opened[0])
        elif line == "}":
            opened.pop()
        else:
            for one in recorded.statements(["omptasks 1", line]):
                recorded.add(opened, one)
    return [by_phase[number] for number in sorted(by_phase)]


def of_calls(text):
    """The regions that the oracle wrote, and whether the program makes tasks outside of any."""
    inside, _, outside = text.partition("outside\n")
    regions = [region(parts(it.splitlines())) for it in inside.split("region\n") if it]
    return sorted(it for it in regions if it), "task" in outside


def tasks(region_of):
    """How many tasks it has."""
    def count(of):
        return sum((step[0] == "task") + count(step[-1]) for step in of)
    return sum(count(body) for one in region_of for body in one)
