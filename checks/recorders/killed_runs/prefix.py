"""Whether a text is the beginning of another: of each task that it has, the first steps that the other text has."""
import os
import sys

sys.path.append(os.path.join(os.path.dirname(os.path.abspath(__file__)), "..", "..", "..", "tools"))
from spanprof.program_text import statements  # noqa: E402

WAIT = "taskwait"


def read(text):
    """The program of a text as a list of steps: a wait is a word, and a task the list of its own steps. Work is left
    out, since its costs differ from run to run."""
    steps, open_tasks = [], []
    for one in statements(text.split("\n")):
        if one.kind == "task":
            open_tasks.append(steps)
            steps.append([])
            steps = steps[-1]
        elif one.of == "task":
            steps = open_tasks.pop()
        elif one.kind == WAIT:
            steps.append(WAIT)
    return steps


def is_prefix(some, whole):
    """Deep trees are gone through with a list of what is left."""
    left = [(some, whole)]
    while left:
        one, other = left.pop()
        if len(one) > len(other):
            return False
        for step, wanted in zip(one, other):
            if (step == WAIT) != (wanted == WAIT):
                return False
            if step != WAIT:
                left.append((step, wanted))
    return True


def count(steps):
    """How many tasks it has."""
    left, tasks = [steps], 0
    while left:
        inner = [step for step in left.pop() if step != WAIT]
        tasks += len(inner)
        left += inner
    return tasks
