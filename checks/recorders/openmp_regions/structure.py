"""What a recording has: tasks, waits and groups inside each other, with the cost of the code between them.

A body is a list of nodes and costs (numbers of nanoseconds), in the order of the code.
"""
from dataclasses import dataclass, field


@dataclass
class Node:
    kind: str  # "task", "taskwait" or "taskgroup"
    line: int  # in the source; 0 where it is not known
    body: list = field(default_factory=list)
    undeferred: bool = False
    depend: list = field(default_factory=list)  # pairs of a type and a name
    is_hidden: bool = False  # the runtime may not tell its line
    is_part: bool = False  # the code of one of the region's threads

    def reported(self):
        words = self.kind + " if(0)" * self.undeferred
        return "%s of line %d" % (words, self.line) if self.line else words


@dataclass
class Piece:
    """A stretch of a region's code between two barriers, and who executes it."""
    who: str  # "all" threads, the "first", any "one", or any threads in "turns"
    times: int
    body: list


@dataclass
class Shape:
    """What the text of a region must have: the pieces of each phase between barriers."""
    line: int
    threads: int
    phases: list


@dataclass
class Recorded:
    """What the text of a region has: for each phase the bodies of its threads."""
    line: int
    phases: list
    remarks: list = field(default_factory=list)
    reading: int = 0  # of the clock, in nanoseconds, which the recorder takes off each cost

    def says(self, name):
        """Whether its head remarks this."""
        return any(remark.name == name for remark in self.remarks)


def nodes(body):
    return [step for step in body if isinstance(step, Node)]


def costs(body):
    """The cost before the first node, between each two, and after the last one."""
    out = [0]
    for step in body:
        if isinstance(step, Node):
            out.append(0)
        else:
            out[-1] += step
    return out


def every_node(body):
    """All nodes of a body, each before what stands in it."""
    for node in nodes(body):
        yield node
        yield from every_node(node.body)


def has_tasks(body):
    return any(node.kind == "task" for node in every_node(body))


def total(body):
    """All costs in a body."""
    return sum(total(step.body) if isinstance(step, Node) else step for step in body)
