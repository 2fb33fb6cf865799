"""A program of tasks as a tree, and its tasks written as tied or as untied ones.

A program is the body of the root: a tuple of statements. docs/FORMATS.md says what each statement means.
"""
import itertools
from dataclasses import dataclass, replace

KINDS = ("in", "out", "inout", "inoutset")
C_KINDS = (*KINDS, "mutexinoutset")  # of depend items in C
# Which tasks are untied, counted from 0 in the order of the text.
VARIANTS = {
    "tied": lambda number: False,
    "untied": lambda number: True,
    "mixed": lambda number: number % 2 == 0,
}


@dataclass(frozen=True)
class Work:
    cost: int


@dataclass(frozen=True)
class Wait:
    pass


@dataclass(frozen=True)
class Group:
    body: tuple
    form: str = "taskgroup"  # the construct in C, and its clauses, where the body allows it: see `form_of`


@dataclass(frozen=True)
class Loop:
    var: str
    first: int
    last: int
    body: tuple
    form: str = "for"

    @property
    def turns(self):
        return max(0, self.last - self.first + 1)


@dataclass(frozen=True)
class Index:
    """The whole number `offset`, or a loop's variable plus that number."""
    var: str
    offset: int

    def value(self, loops):
        return self.offset + (loops[self.var] if self.var else 0)

    def __str__(self):
        if not self.var:
            return str(self.offset)
        sign = "-" if self.offset < 0 else "+"
        return f"{self.var}{sign}{abs(self.offset)}" if self.offset else self.var


@dataclass(frozen=True)
class Item:
    kind: str
    name: str
    index: Index = None

    @property
    def place(self):
        return self.name if self.index is None else f"{self.name}[{self.index}]"


@dataclass(frozen=True)
class Task:
    undeferred: bool
    final: bool
    items: tuple
    body: tuple
    clauses: tuple = ()  # how it is written in C: untied, mergeable, priority(3), and the words of tester/forms.py


def nodes(body):
    """Every statement of a body, however deep, in the order of the text."""
    for node in body:
        yield node
        yield from nodes(getattr(node, "body", ()))


def with_body(node, body):
    return replace(node, body=tuple(body))


def segment_count(body):
    """How many segments a body cuts off: two for each task, one for each wait and group, for each turn of a loop."""
    count = 0
    for node in body:
        inner = segment_count(getattr(node, "body", ()))
        if isinstance(node, Loop):
            count += node.turns * inner
        elif not isinstance(node, Work):
            count += inner + (2 if isinstance(node, Task) else 1)
    return count


def in_variant(body, variant):
    """The program with its tasks written as this variant has them."""
    return rewritten(body, VARIANTS[variant], itertools.count())


def rewritten(body, is_untied, numbers):
    made = []
    for node in body:
        if isinstance(node, Task):
            rest = tuple(clause for clause in node.clauses if clause != "untied")
            node = replace(node, clauses=("untied",) * is_untied(next(numbers)) + rest)
        made.append(with_body(node, rewritten(node.body, is_untied, numbers)) if hasattr(node, "body") else node)
    return tuple(made)
