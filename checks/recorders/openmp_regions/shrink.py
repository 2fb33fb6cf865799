"""Makes a program smaller while it still fails: statements are dropped, clauses too, and bodies take their place."""
import copy
from dataclasses import replace

from program import Repeat, Sections, Task, Taskgroup, Taskloop


def without(items, i):
    return items[:i] + items[i + 1:]


def simpler(statement):
    """The same statement with less: without a clause or an item, with fewer tasks or turns."""
    for name in ("undeferred", "final", "untied", "mergeable", "reduces", "locked"):
        if getattr(statement, name, False):
            yield replace(statement, **{name: False})
    depend = getattr(statement, "depend", [])
    for i in range(len(depend) if isinstance(statement, Task) else 0):
        yield replace(statement, depend=without(depend, i))
    for name in ("tasks", "turns", "times", "microseconds"):
        if getattr(statement, name, 0) > 1:
            yield replace(statement, **{name: getattr(statement, name) // 2})


def smaller_bodies(statement):
    if isinstance(statement, Sections):
        for i, body in enumerate(statement.bodies):
            yield replace(statement, bodies=without(statement.bodies, i))
            for one in smaller(body):
                yield replace(statement, bodies=statement.bodies[:i] + [one] + statement.bodies[i + 1:])
    elif hasattr(statement, "body"):
        for one in smaller(statement.body):
            yield replace(statement, body=one)


def smaller(statements):
    """Lists of statements that are a step smaller, the largest steps first."""
    for i in range(len(statements)):
        yield without(statements, i)
    for i, statement in enumerate(statements):
        if isinstance(statement, (Task, Taskgroup, Taskloop, Repeat)):
            yield statements[:i] + statement.body + statements[i + 1:]
        for one in list(smaller_bodies(statement)) + list(simpler(statement)):
            yield statements[:i] + [one] + statements[i + 1:]


def shrink(statements, still_fails, most_tries):
    """The smallest list found in which `still_fails`; each step is tried on a copy."""
    tries = 0
    found = True
    while found and tries < most_tries:
        found = False
        for candidate in smaller(statements):
            tries += 1
            candidate = copy.deepcopy(candidate)
            if still_fails(candidate):
                statements, found = candidate, True
                break
            if tries >= most_tries:
                break
    return statements
