"""What is true of the programs of shapes.c, by how they are made; all times in milliseconds."""
import sys
from math import ceil
from os.path import abspath, dirname, join

sys.path.append(join(dirname(dirname(abspath(__file__))), "true_words"))
from truth import Shape  # noqa: E402


def in_a_row(*stages):
    """Stages one after the other, each so many pieces of one length beside each other, on so many threads."""
    return lambda threads: sum(ceil(count / threads) * length for count, length in stages)


def turns_in_order(before, inside):
    """Sixteen turns, dealt to the threads one by one: the end of each waits for that of the turn before."""
    def least(threads):
        free, last = [0] * threads, 0
        for turn in range(16):
            last = max(free[turn % threads] + before, last) + inside
            free[turn % threads] = last
        return last
    return least


def rows(threads):
    """Eight rows of eight, dealt to the threads one by one: each piece after the one to the left and the one above."""
    above, free = [0] * 8, [0] * threads
    for row in range(8):
        last = free[row % threads]
        for column in range(8):
            last = above[column] = max(last, above[column]) + 1
        free[row % threads] = last
    return above[-1]


def program(name, *stages):
    return Shape(name, sum(count * length for count, length in stages), in_a_row(*stages))


SHAPES = (
    program("loop", (1, 30), (32, 2), (1, 10)),
    program("chunks", (64, 1)),
    program("interleaved", (32, 2)),
    program("steps", *((1, 1), (16, 1)) * 10),
    program("one_region", *((16, 1), (1, 1)) * 10),
    program("all_kinds", (1, 10), (8, 4), (8, 3), (2, 4), (1, 5)),
    program("reduction", (16, 2), (1, 4)),
    Shape("nested", 76, lambda threads: 14 if threads >= 8 else max(76 / threads, 14)),
    Shape("outside", 21, lambda threads: 21),
    Shape("doacross", 32, lambda threads: 32),
    Shape("before_the_wait", 80, turns_in_order(4, 1)),
    Shape("wavefront", 64, rows),
    Shape("in_order", 64, turns_in_order(3, 1)),
)
AROUND = {"loop": 40, "steps": 1, "all_kinds": 15, "reduction": 4, "outside": 16}  # code before all regions and after
OWN_THREADS = {"nested": 4}  # that the program itself asks for
WITH_TASKS = ("all_kinds", "nested", "outside")
WAITING = ("doacross", "before_the_wait", "wavefront")  # turns for each other
MANY = 1024
TOLERANCE = 0.05
SLACK = 0.5  # milliseconds: what the runtime does in code


def beginning_with(shape, before):
    """The shape with so much code before it."""
    return Shape(shape.name, shape.work + before, lambda threads: shape.least(threads) + before)


def faults_of_numbers(shape, threads, work, span):
    """Of a whole program's text, against what was built in. On one thread tasks are undeferred, and no turn waits."""
    for name, found, true in (("work", work, shape.work), ("span", span, shape.least(MANY)))[:1 + (threads > 1)]:
        if abs(found - true) > true * TOLERANCE + SLACK:
            yield "%s %.2f, and %.2f was built in" % (name, found, true)
