"""The structure that a recording of a program must have, told from the program alone (OpenMP API 5.2, tasking)."""
from program import (All, Barrier, For, Master, Region, Repeat, Sections, Single, Task, Taskgroup, Taskloop, Taskwait,
                     Work, bodies)
from structure import Node, Piece, Shape


def body_of(statements, forced):
    """What a task's code leaves in the text of its region; `forced`: every task in it is undeferred."""
    out = []
    for statement in statements:
        out += steps_of(statement, forced)
    return out


def steps_of(statement, forced):
    if isinstance(statement, Work):
        return [1000 * statement.microseconds]
    if isinstance(statement, Task):
        return [task(statement, forced, statement.depend)]
    if isinstance(statement, Taskwait):
        if not statement.depend:
            return [Node("taskwait", statement.line)]
        return [Node("task", statement.line, [], True, list(statement.depend))]  # an empty undeferred task
    if isinstance(statement, Taskgroup):
        return [Node("taskgroup", statement.line, body_of(statement.body, forced))]
    if isinstance(statement, Taskloop):
        tasks = [task(statement, forced, []) for _ in range(statement.tasks)]
        for one in tasks:
            one.is_hidden = statement.nogroup
        return tasks if statement.nogroup else [Node("taskgroup", statement.line, tasks)]
    if isinstance(statement, Repeat):
        return [step for _ in range(statement.times) for step in body_of(statement.body, forced)]
    return []  # a region inside has a text of its own


def task(statement, forced, depend):
    inside = body_of(statement.body, forced or statement.final)
    return Node("task", statement.line, inside, forced or statement.undeferred, list(depend))


def pieces(statement, forced, threads):
    """What a statement of a region is to its threads."""
    if isinstance(statement, All):
        return [Piece("all", threads, body_of(statement.body, forced))]
    if isinstance(statement, Single):
        return [Piece("one", 1, body_of(statement.body, forced))]
    if isinstance(statement, Master):
        return [Piece("first", 1, body_of(statement.body, forced))]
    if isinstance(statement, Sections):
        return [Piece("one", 1, body_of(body, forced)) for body in statement.bodies]
    if isinstance(statement, For):
        return [Piece("turns", statement.turns, body_of(statement.body, forced))]
    return []


def ends_phase(statement):
    if isinstance(statement, (Single, Sections, For)):
        return not statement.nowait
    return isinstance(statement, Barrier)


def threads_of(region, asked):
    return asked if region.threads is None else region.threads


def shape(region, asked, defers_alone=False):
    """What the text of this region must have, where the run is asked for so many threads. LLVM's runtime
    defers no task of a thread that is alone."""
    threads = threads_of(region, asked)
    phases = [[]]
    for statement in region.body:
        phases[-1] += pieces(statement, threads == 1 and not defers_alone, threads)
        if ends_phase(statement):
            phases.append([])
    return Shape(region.line, threads, phases)


def times_executed(statement, threads):
    """How often what stands in a statement is executed, each time that the statement is met."""
    if isinstance(statement, All):
        return threads
    if isinstance(statement, (Repeat, For)):
        return statement.times if isinstance(statement, Repeat) else statement.turns
    return statement.tasks if isinstance(statement, Taskloop) else 1


def works(statements, asked, threads=1):
    """How often `work` is called when these are executed; an empty block calls it once."""
    count = 0
    for statement in statements:
        if isinstance(statement, Work):
            count += 1
        elif isinstance(statement, Region):
            inside = threads_of(statement, asked)
            count += works(statement.body, asked, inside) if statement.body else inside
        elif isinstance(statement, (Taskloop, Repeat, For, All)):
            count += times_executed(statement, threads) * works(statement.body, asked, threads)
        else:
            count += sum(works(body, asked, threads) if body else 1 for body in bodies(statement))
    return count


def regions(statements, asked, threads=1, times=1, outer=True):
    """Each region with how often it is executed, and whether it stands in no other one."""
    for statement in statements:
        if isinstance(statement, Region):
            yield statement, times, outer
            yield from regions(statement.body, asked, threads_of(statement, asked), times, False)
            continue
        inside = times * times_executed(statement, threads)
        for body in getattr(statement, "bodies", [getattr(statement, "body", [])]):
            yield from regions(body, asked, threads, inside, outer)
