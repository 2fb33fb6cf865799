"""Reads the text that the recorder wrote, with the lines of the source that its comments tell."""
import os
import re
import sys

from structure import Node, Recorded, every_node, nodes

sys.path.append(os.path.join(os.path.dirname(os.path.abspath(__file__)), "..", "..", "..", "tools"))
from spanprof.head import read_head  # noqa: E402
from spanprof.program_text import statements  # noqa: E402

PART = "one of the region's threads"


def line_of(comment):
    found = re.search(r":(\d+)\b", comment)
    return int(found.group(1)) if found else 0


def add(open_bodies, one):
    """Adds a statement to the innermost open body."""
    if one.kind == "end":
        open_bodies.pop()
    elif one.kind == "work":
        open_bodies[-1].append(one.cost)
    else:
        node = Node(one.kind, line_of(one.comment), [], one.is_undeferred, list(one.items))
        node.is_part = PART in one.comment
        open_bodies[-1].append(node)
        if one.kind != "taskwait":
            open_bodies.append(node.body)


def phases(body):
    """A text has one thread's body, or a group for each phase with a task for each thread."""
    of_parts = [[part.body for part in nodes(group.body) if part.is_part] for group in nodes(body)]
    return [bodies for bodies in of_parts if bodies] or [[body]]


def read(text):
    """A recorded text as the bodies of the region's threads, phase by phase.

    Under gcc's code LLVM may tell the region's line for a construct in it; that counts as a line that is not known.
    """
    head = read_head(text)
    root = []
    open_bodies = [root]
    for one in statements(text.split("\n")):
        add(open_bodies, one)
    region = line_of(head.region)
    for node in every_node(root):
        node.line = 0 if node.line == region else node.line
    return Recorded(region, phases(root), head.remarks, head.clock_reading or 0)
