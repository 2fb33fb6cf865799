"""Draws a program and how it is run from a seed.

What LLVM 16 itself gets wrong is not drawn. With any tool or none: an untied task with `if(0)`, with `taskyield`, with
a loop, or directly inside another untied task. With any tool: an `if(0)` with `inoutset` or `mutexinoutset`.
"""
import random
from dataclasses import dataclass

from expect import regions, shape
from program import (All, Barrier, For, Master, Region, Repeat, Sections, Single, Task, Taskgroup, Taskloop, Taskwait,
                     Work, Yield)
from structure import every_node
from write_c import LOCATIONS

FEATURES = ("untied", "final", "if0", "mergeable", "depend", "taskwait", "taskgroup", "taskloop", "critical", "yield",
            "waits_for_items", "reductions")
SHAPES = ("single", "master", "all", "sections", "for", "barrier", "nested", "many", "regions")
COMPILERS = ("clang", "clang++", "gcc", "g++")
MOST_TASKS = 3000  # of a region, and far below spanprof's limit


@dataclass
class Draw:
    """A program, its compiler, the numbers of threads that it is run on, and the recorder's clock."""
    seed: int
    compiler: str
    threads: list
    clock: str
    statements: list

    def is_of_gcc(self):
        return self.compiler in ("gcc", "g++")

    def is_on_gcc(self):
        """On gcc's runtime; the others of gcc run on LLVM's."""
        return self.is_of_gcc() and self.seed % 2 == 0

    def is_preloaded(self):
        """Whether the recorder stands in front of the system's functions too, and takes samples."""
        return self.is_on_gcc() or self.seed % 2 == 1


class Hand:
    """Draws statements of one program."""

    def __init__(self, rng, compiler, features, fewest_threads):
        self.rng, self.features = rng, features
        self.one_thread = fewest_threads == 1
        self.knows_set = compiler.startswith("clang")  # gcc 12 does not know `inoutset`
        self.left = rng.randint(4, 40)  # how many statements may still be drawn

    def chance(self, feature, odds=.3):
        return feature in self.features and self.rng.random() < odds

    def depend(self, undeferred):
        """Items with different locations; `undeferred`: by a clause of its own."""
        types = ["in", "out", "inout"]
        if not undeferred:
            types += ["mutexinoutset"] + ["inoutset"] * self.knows_set
        places = self.rng.sample(range(LOCATIONS), self.rng.randint(1, 3))
        return [(self.rng.choice(types), place) for place in places]

    def task(self, depth, forced, untied):
        undeferred = self.chance("if0", .2)
        final = self.chance("final", .25)
        own_untied = self.chance("untied", .4) and not undeferred and not untied
        depend = self.depend(undeferred) if self.chance("depend", .5) else []
        body = self.body(depth + 1, forced or final, own_untied)
        return Task(body, depend, undeferred, final, own_untied, self.chance("mergeable", .2))

    def taskloop(self, depth, forced, _):
        final, undeferred = self.chance("final", .2), self.chance("if0", .2)
        body = [Work(self.rng.randint(1, 20))]
        if depth < 3 and self.rng.random() < .3:
            body = self.body(3, forced or final, True)
        return Taskloop(body, self.rng.randint(1, 8), self.rng.random() < .2, undeferred, final)

    def statement(self, depth, forced, untied):
        """One statement of a task's code; `untied`: of an untied task, which neither loops nor yields here."""
        self.left -= 1
        if depth < 4 and self.rng.random() < .45:
            return self.task(depth, forced, untied)
        if self.chance("taskwait"):
            items = self.depend(True) if self.chance("waits_for_items", .4) else []
            return Taskwait(items)
        if self.chance("taskgroup"):
            return Taskgroup(self.body(depth + 1, forced, untied), self.chance("reductions", .3))
        if self.chance("taskloop", .2) and not untied:
            return self.taskloop(depth, forced, untied)
        if self.chance("yield", .15) and not untied:
            return Yield()
        if self.chance("nested", .1) and not untied and not forced and depth < 3:
            return self.nested()
        return Work(self.rng.choice([0, 1, 5, 20, 100]), self.chance("critical", .3))

    def body(self, depth, forced=False, untied=False):
        count = self.rng.randint(0 if depth > 1 else 1, 4)
        return [self.statement(depth, forced, untied) for _ in range(count) if self.left > 0]

    def nested(self):
        threads = self.rng.choice([1, 2, 3])
        return Region([self.part(threads == 1, False) for _ in range(self.rng.randint(1, 2))], threads)

    def many(self):
        """More tasks in a row than a thread's queue holds."""
        return Repeat([Task([Work(1)])], self.rng.randint(260, 400))

    def part(self, forced, outer=True):
        """What stands in a region outside of tasks."""
        shapes = [shape for shape in SHAPES[:6] if shape in self.features] or ["single"]
        shape, nowait = self.rng.choice(shapes), self.rng.random() < .4
        if shape == "all":
            return All(self.body(2, forced))
        if shape == "master":
            return Master(self.body(1, forced))
        if shape == "sections":
            return Sections([self.body(2, forced) for _ in range(self.rng.randint(1, 4))], nowait)
        if shape == "for":
            schedule = self.rng.choice(["static", "static, 1", "dynamic"])
            return For(self.body(3, forced), self.rng.randint(1, 8), schedule, nowait)
        if shape == "barrier":
            return Barrier()
        body = self.body(1, forced)
        if outer and self.chance("many", .3):
            body.insert(self.rng.randint(0, len(body)), self.many())
        return Single(body, nowait)

    def region(self):
        return Region([self.part(self.one_thread) for _ in range(self.rng.randint(1, 4))])

    def program(self):
        out = []
        for _ in range(self.rng.randint(2, 4) if "regions" in self.features else 1):
            out += [Work(self.rng.choice([0, 20]))] if self.rng.random() < .3 else []
            self.left = max(self.left, 6)
            out.append(self.region())
        return out


def some(rng, names, odds):
    return {name for name in names if rng.random() < odds}


def tasks_of(statements, asked):
    """The tasks of the largest text."""
    inside = [shape(region, asked) for region, _, _ in regions(statements, asked)]
    return max(sum(piece.times * sum(node.kind == "task" for node in every_node(piece.body))
                   for phase in one.phases for piece in phase) for one in inside)


def draw(seed, always=()):
    """The program of a seed; the features named in `always` are in it whatever the seed says."""
    rng = random.Random(seed)
    compiler = rng.choice(COMPILERS)
    threads = sorted(rng.sample([1, 2, 3, 4, 6, 8, 16], 2))
    features = some(rng, FEATURES, .5) | some(rng, SHAPES, .35) | set(always)
    clock = rng.choice(["wall", "cpu"])
    hand = Hand(rng, compiler, features, threads[0])
    statements = hand.program()
    while tasks_of(statements, threads[-1]) > MOST_TASKS:
        statements = hand.program()
    return Draw(seed, compiler, threads, clock, statements)
