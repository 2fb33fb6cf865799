"""A program text as tasks, each with the steps of its code: what a simulation of a runtime goes through."""
from dataclasses import dataclass, field
from typing import List, Tuple

from spanprof.program_text import Marks, of_marks
from spanprof.segment_table import code_of

WORK, CREATE, WAIT, BEGIN, END = range(5)


@dataclass
class Task:
    """`steps` are pairs of a kind and what it is of: a segment, a task, or a group."""
    parent: int
    depth: int
    place: str
    is_undeferred: bool = False
    groups: Tuple[int, ...] = ()    # in which it stands, each with all below it
    steps: List[Tuple[int, int]] = field(default_factory=list)
    awaits: int = 0                 # how many earlier siblings by `depend`
    followers: List[int] = field(default_factory=list)  # the later siblings that wait for it
    is_of_loop: bool = False        # of a taskloop, whose group has its place too


@dataclass
class Program:
    tasks: List[Task]
    costs: List[int]
    places: List[str]   # of the segments
    owners: List[int]   # the task of each segment
    groups: int

    def first_segment(self, task):
        return self.tasks[task].steps[0][1]


class Depends:
    """The latest items of siblings, by parent and name: tasks that conflict with one another stand in different
    generations, and one waits for those of the generation before its own."""

    def __init__(self):
        self.names = {}

    @staticmethod
    def kind_of(item):
        return item if item in ("in", "inoutset") else "out"

    def before(self, parent, task, items):
        """The tasks for which a new one waits."""
        found = set()
        for item, name in items:
            generations = self.names.setdefault((parent, name), [])
            kind = self.kind_of(item)
            if generations and generations[-1][1] == {task}:
                if generations[-1][0] != kind:
                    generations[-1][0] = "out"
            elif generations and kind != "out" and generations[-1][0] == kind:
                generations[-1][1].add(task)
            else:
                generations.append([kind, {task}])
                del generations[:-2]
            if len(generations) > 1:
                found |= generations[-2][1]
        return found - {task}


class Builder:
    """Builds a program statement by statement."""

    def __init__(self):
        self.segment, self.depends = 0, Depends()
        self.tasks = [Task(-1, 0, "", steps=[(WORK, 0)])]
        self.open_tasks, self.open_groups, self.blocks, self.groups = [0], [], [], 0    # blocks: their marks

    def step(self, kind, of=0):
        self.tasks[self.open_tasks[-1]].steps.append((kind, of))

    def take(self, one):
        if one.kind == "task":
            self.begin_task(one)
        elif one.kind == "taskgroup":
            self.step(BEGIN, self.groups)
            self.open_groups.append(self.groups)
            self.blocks.append(one)
            self.groups += 1
        elif one.kind == "taskwait":
            self.step(WAIT)
        elif one.kind == "end":
            self.end()
        if one.kind not in ("work", "taskgroup"):
            self.segment += 1
            self.step(WORK, self.segment)

    def begin_task(self, one):
        parent, number = self.open_tasks[-1], len(self.tasks)
        self.step(CREATE, number)
        made = Task(parent, self.tasks[parent].depth + 1, one.comment, one.is_undeferred, tuple(self.open_groups))
        if one.items:
            before = self.depends.before(parent, number, one.items)
            made.awaits = len(before)
            for other in before:
                self.tasks[other].followers.append(number)
        around = self.blocks[-1] if self.blocks else one
        made.is_of_loop = around.kind == "taskgroup" and one.comment == around.comment != ""
        self.tasks.append(made)
        self.open_tasks.append(number)
        self.blocks.append(one)

    def end(self):
        if self.blocks.pop().kind == "task":
            self.open_tasks.pop()
        else:
            self.step(END, self.open_groups.pop())


def read_program(text):
    """Of a text of version 1 that spanprof has taken."""
    marks, builder = Marks(text.split("\n")), Builder()
    for one in of_marks(marks):
        builder.take(one)
    code = code_of(marks)
    return Program(builder.tasks, list(code.cost), list(code.places), list(code.task), builder.groups)
