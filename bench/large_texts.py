#!/usr/bin/env python3
"""Writes a program of some number of tasks for large.sh. The shapes are the functions below."""
import argparse
import sys

STENCIL_CELLS = 1_000
ITEMS = 32
LONGEST_LINE = 1_000_000_000
LINE_BYTES = 1_000
COLLIDING = "Kuxo0343OZaYBI_9gQiE18r"


def independent(tasks):
    """The root creates all and waits once."""
    for _ in range(tasks):
        yield "task { work 2 }\n"
    yield "taskwait\n"


def chain(tasks):
    """Each task awaits the one before it."""
    for _ in range(tasks):
        yield "task depend(inout: x) { work 2 }\n"


def tree(tasks):
    """Each task works, creates two children and waits for both; the leaves have none. As many levels as fit."""
    def below(levels):
        if levels == 1:
            yield "task { work 1 }\n"
            return
        yield "task { work 1\n"
        yield from below(levels - 1)
        yield from below(levels - 1)
        yield "taskwait }\n"

    yield from below(max(1, (tasks + 1).bit_length() - 1))


def nested(tasks):
    """Each task but the innermost creates one child, works, and waits for it."""
    for _ in range(tasks):
        yield "task { work 1\n"
    for _ in range(tasks):
        yield "taskwait }\n"


def stencil(tasks):
    """Rounds over the same cells: each task changes one and reads the next."""
    for number in range(tasks):
        cell = number % STENCIL_CELLS
        yield f"task depend(inout: c_{cell}) depend(in: c_{(cell + 1) % STENCIL_CELLS}) {{ work {1 + number % 4} }}\n"


def grid(tasks):
    """A square, each task after its neighbours above and to the left: a name for each."""
    side = int(tasks ** 0.5)
    for row in range(side):
        for column in range(side):
            above, left = f"a_{max(row - 1, 0)}_{column}", f"a_{row}_{max(column - 1, 0)}"
            cost = 1 + (row + column) % 5
            yield f"task depend(in: {above}, {left}) depend(out: a_{row}_{column}) {{ work {cost} }}\n"


def far_apart(tasks):
    """Each task after the one that changed a near name last, and after one of long ago."""
    for number in range(tasks):
        yield f"task depend(inout: n{number % 7}, f{number * 7919 % (tasks // 4 + 1)}) {{ work 1 }}\n"


def names(tasks):
    """A name for each task, mentioned once."""
    for number in range(tasks):
        yield f"task depend(out: n{number}) {{ work 1 }}\n"


def colliding(tasks):
    """As many names, which collide under the fixed key of the table's hash."""
    for number in range(tasks):
        yield f"task depend(out: {COLLIDING}{number:08}) {{ work 1 }}\n"


def items(tasks):
    """The most depend items for each task, all on names of its own."""
    for number in range(tasks):
        mentioned = ", ".join(f"n{ITEMS * number + place}" for place in range(ITEMS))
        yield f"task depend(out: {mentioned}) {{ work 1 }}\n"


def same_items(tasks):
    """The most depend items for each task, all on the same names."""
    mentioned = ", ".join(f"n{place}" for place in range(ITEMS))
    for _ in range(tasks):
        yield f"task depend(inout: {mentioned}) {{ work 1 }}\n"


def groups(tasks):
    """As many open groups."""
    for _ in range(tasks):
        yield "taskgroup { work 1\n"
    for _ in range(tasks):
        yield "}\n"


def one_line(tasks):
    """All tasks on a line, which is kept whole: 1,000 bytes for each, and 1 GB at most."""
    task = "task { work 2 }"
    blanks = " " * max(1, min(LINE_BYTES, LONGEST_LINE // max(1, tasks)) - len(task))
    for _ in range(tasks):
        yield task + blanks
    yield "\n"


SHAPES = {shape.__name__: shape for shape in (independent, chain, tree, nested, stencil, grid, far_apart, names,
                                              colliding, items, same_items, groups, one_line)}


def number(word):
    if not word.isdigit():
        raise argparse.ArgumentTypeError("%r is no number of tasks" % word)
    return int(word)


def main(words=None):
    parser = argparse.ArgumentParser(description=__doc__)
    parser.add_argument("shape", choices=SHAPES)
    parser.add_argument("tasks", type=number, help="how many")
    asked = parser.parse_args(words)
    sys.stdout.write("omptasks 1\n")
    sys.stdout.writelines(SHAPES[asked.shape](asked.tasks))


if __name__ == "__main__":
    main()
