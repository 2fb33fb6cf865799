"""A program's segments, and by which rule one of them has to precede another.

spanprof decides whether a run is legal. What stands here only puts its answer into words and counts which rules a run
has tried, so it follows the table of docs/MODEL.md pair by pair and not the kept edges.
"""
from dataclasses import dataclass, field
from typing import NamedTuple

from spanprof.conformance.emit.forms import (chunks_of, counts_down, form_of, has_sum, is_cancelled, is_detached,
                                             is_of_regions, kind_in_c)
from spanprof.conformance.generate.program import Group, Loop, Wait, Work
from spanprof.conformance.generate.text_writer import head_of
from spanprof.conformance.judge.chunks import Taskloop


@dataclass
class Made:
    """A task of the expanded program."""
    number: int
    parent: "Made"
    creator: int          # the segment that creates it
    undeferred: str       # the clause that makes it undeferred, or nothing
    items: tuple          # pairs of a kind and a location
    head: str
    final_inside: bool
    tied: bool = True       # as far as the log tells: not where parts of the text run in another task's place
    detached: bool = False  # whether an event completes it, which its one child fulfils
    exclusive: frozenset = frozenset()  # the locations on which other tasks must not run at the same time
    implicit: bool = False  # whether it stands for a part of an implicit task of a region
    cancels: bool = False   # whether it asks to cancel its group
    cancellers: list = field(default_factory=list)  # the tasks that cancel the group in which it is created
    children: list = field(default_factory=list)
    segments: list = field(default_factory=list)

    def family(self):
        """The task and all below it."""
        yield self
        for child in self.children:
            yield from child.family()


@dataclass
class Cut:
    """What a segment begins after: the rule, the construct, and the tasks that have to be complete there."""
    rule: str
    construct: str
    tasks: tuple = ()


class Need(NamedTuple):
    """A segment that has to precede another, by which rule and construct."""
    before: int
    rule: str
    construct: str


class Table:
    """All segments of a program: the task, the cost and the cut before each."""

    def __init__(self, body):
        self.task_of, self.cost, self.cut, self.tasks, self.taskloops = [], [], [], [], []
        self.turn_of, self.sums = {}, []  # of taskloops: by first segment, which turn of which; of sums: form, tasks
        self.regions = is_of_regions(body)
        self.cancellers = []  # of the group that is walked through
        root = self.begin(None, -1, "", (), "the root", False)
        self.walk(body, root, {})

    def begin(self, parent, creator, undeferred, items, head, final_inside):
        task = Made(len(self.tasks), parent, creator, undeferred, items, head, final_inside)
        self.tasks.append(task)
        if parent:
            parent.children.append(task)
        self.open(task, Cut("creation", "task"))
        return task

    def open(self, task, cut):
        task.segments.append(len(self.cost))
        self.task_of.append(task)
        self.cost.append(0)
        self.cut.append(cut)

    def walk(self, body, task, loops):
        for node in body:
            if isinstance(node, Work):
                self.cost[task.segments[-1]] += node.cost
            elif isinstance(node, Wait):
                self.open(task, Cut("taskwait", "taskwait", tuple(task.children)))
            elif isinstance(node, Group):
                before = len(task.children)
                self.group(node, task, loops)
                self.chunk(node, node.body[0] if node.body else None, task, task.children[before:])
                for child in task.children[before:]:
                    child.implicit = self.regions and task.parent is None
                inside = [t for child in task.children[before:] for t in child.family()]
                self.sums += [(form_of(node), inside)] * (has_sum(node) and not task.final_inside)
                self.open(task, Cut("taskgroup", form_of(node), tuple(inside)))
            elif isinstance(node, Loop):
                before = len(task.children)
                for turn in range(node.first, node.last + 1):
                    self.walk(node.body, task, {**loops, node.var: turn})
                self.chunk(node, node, task, task.children[before:])
            else:
                self.task(node, task, loops)

    def group(self, node, task, loops):
        """The body of a group, and which of its tasks cancel it."""
        around, self.cancellers = self.cancellers, []
        before = len(task.children)
        self.walk(node.body, task, loops)
        if is_cancelled(node) and not task.final_inside:
            self.cancellers += [child for child in task.children[before:] if child.cancels]
        self.cancellers = around

    def chunk(self, node, loop, parent, turns):
        """The turns of what may be a taskloop. Where one task runs several, it may run what is below one of them while
        it waits in another."""
        clause = chunks_of(node)
        if form_of(node) == "taskloop" and not parent.final_inside:
            for number, turn in enumerate(turns, loop.first):
                self.turn_of[turn.segments[0]] = f"iteration {number} of {loop.first}..{loop.last} of a taskloop"
        if clause not in ("", "any") and not parent.final_inside:
            firsts = [turn.segments[0] for turn in turns]
            self.taskloops.append(Taskloop(clause, tuple(firsts[::-1] if counts_down(loop) else firsts)))
        for turn in turns if clause else ():
            turn.tied = False

    def task(self, node, parent, loops):
        items = tuple((i.kind, i.name if i.index is None else f"{i.name}[{i.index.value(loops)}]") for i in node.items)
        undeferred = "if(0)" if node.undeferred else "final" if parent.final_inside else ""
        child = self.begin(parent, parent.segments[-1], undeferred, items, head_of(node),
                           node.final or parent.final_inside)
        child.cancels, child.cancellers = "cancels" in node.clauses, self.cancellers
        child.detached = is_detached(node) and not parent.final_inside
        child.tied = "untied" not in node.clauses and not child.detached
        child.exclusive = frozenset(place for kind, place in items if kind_in_c(kind, node) == "mutexinoutset")
        self.walk(node.body, child, loops)
        self.open(parent, Cut("undeferred", undeferred, (child,) if undeferred else ()))

    def needs(self, after):
        """All segments that have to precede a segment by one step of a rule."""
        task, cut = self.task_of[after], self.cut[after]
        place = task.segments.index(after)
        if place:
            return [Need(task.segments[place - 1], "order", "order"),
                    *(Need(t.segments[-1], cut.rule, cut.construct) for t in cut.tasks)]
        created = [Need(task.creator, "creation", "task")] if task.parent else []
        return created + list(self.dependences(task))

    def dependences(self, task):
        if not task.items:
            return
        for earlier in task.parent.children:
            if earlier is task:
                return
            kinds = conflict(earlier.items, task.items)
            if kinds:
                yield Need(earlier.segments[-1], "dependence", dependence_of(*kinds[:2], bool(task.undeferred)))

    def need(self, before, after):
        """Why one segment has to precede another: by one step of a rule, or None."""
        return next((need for need in self.needs(after) if need.before == before), None)

    def name_of(self, segment):
        """A segment in words."""
        task = self.task_of[segment]
        place = task.segments.index(segment) + 1
        turn = ", " + self.turn_of[segment] if segment in self.turn_of else ""
        return f"segment {segment} (part {place} of {len(task.segments)} of task {task.number}, `{task.head}`{turn})"


def dependence_of(kind, then, undeferred):
    """What a dependence is called. An undeferred task waits in its parent's thread, in another part of a runtime."""
    return f"{kind}, then {then}" + " (undeferred)" * undeferred


def conflict(earlier, later):
    """The kinds and the place of the first conflict between the items of two siblings, or None."""
    for kind, place in earlier:
        for other, there in later:
            if place == there and (kind != other or kind not in ("in", "inoutset")):
                return kind, other, place
    return None
