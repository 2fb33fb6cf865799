"""A random program of parallel regions, as a tree of its statements.

`write_c` gives each statement its `line`; `expect` says what a recording of it must have.
"""
from dataclasses import dataclass, field


@dataclass
class Statement:
    line: int = field(default=0, init=False, compare=False)  # of its directive in the written program


@dataclass
class Work(Statement):
    """Code that takes so many microseconds of processor time, in a critical section where `locked`."""
    microseconds: int
    locked: bool = False


@dataclass
class Task(Statement):
    body: list
    depend: list = field(default_factory=list)  # pairs of a dependence type and the number of a location
    undeferred: bool = False  # if(0)
    final: bool = False
    untied: bool = False
    mergeable: bool = False


@dataclass
class Taskwait(Statement):
    depend: list = field(default_factory=list)


@dataclass
class Taskgroup(Statement):
    body: list
    reduces: bool = False  # with task_reduction


@dataclass
class Taskloop(Statement):
    body: list
    tasks: int
    nogroup: bool = False
    undeferred: bool = False
    final: bool = False


@dataclass
class Repeat(Statement):
    """A loop of the program around statements."""
    body: list
    times: int


@dataclass
class Yield(Statement):
    pass


@dataclass
class Region(Statement):
    """A parallel region; `threads` is None for as many as the run is asked for."""
    body: list
    threads: int = None


# What stands in a region outside of tasks, met by all of its threads.
@dataclass
class All(Statement):
    """Statements that every thread executes."""
    body: list


@dataclass
class Single(Statement):
    body: list
    nowait: bool = False


@dataclass
class Master(Statement):
    body: list


@dataclass
class Sections(Statement):
    bodies: list
    nowait: bool = False


@dataclass
class For(Statement):
    """A loop whose turns the threads share."""
    body: list
    turns: int
    schedule: str = "static, 1"
    nowait: bool = False


@dataclass
class Barrier(Statement):
    pass


def bodies(statement):
    """The lists of statements that stand in this one."""
    if isinstance(statement, Sections):
        return statement.bodies
    return [statement.body] if hasattr(statement, "body") else []


def walk(statements):
    """All statements of these, each before what stands in it."""
    for statement in statements:
        yield statement
        for body in bodies(statement):
            yield from walk(body)
