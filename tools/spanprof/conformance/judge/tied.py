"""What holds of tied tasks alone. All tasks of spanprof's text are untied, so it is looked at here."""
import re

UNDEFERRED = "undeferred task of an untied one"


def moved(table, events):
    """In words, the first event in which a tied task goes on on another thread than it began on; None without one."""
    thread_of = {}
    for place, event in enumerate(events):
        what, thread, segment = event.split()
        task = table.task_of[int(segment)]
        if what == "start" and task.tied and thread_of.setdefault(task.number, thread) != thread:
            return f"event {place}: thread {thread} starts {table.name_of(int(segment))}, which is tied and began on " \
                   f"thread {thread_of[task.number]}"
    return None


def unconstrained(table, events):
    """In words, the first event in which a thread begins a tied task that is not below each tied task which has begun
    there and is not complete; None without one. This is the task scheduling constraint of the OpenMP API 5.2. Implicit
    tasks are left out, of which one may run several parts of the text, and what is below a final task, which the
    thread that meets it has to run."""
    open_tasks = {}  # by thread, the tied tasks that have begun there and are not complete
    for place, event in enumerate(events):
        what, thread, segment = event.split()
        task = table.task_of[int(segment)]
        if not task.tied or task.implicit:
            continue
        there = open_tasks.setdefault(thread, [])
        if what == "start" and int(segment) == task.segments[0]:
            others = [other for other in there if not is_below(task, other)]
            if others and not is_included(task):
                return f"event {place}: thread {thread} begins {table.name_of(int(segment))}, which is tied and not " \
                       f"below task {others[-1].number}, `{others[-1].head}`, which is tied and suspended there"
            there.append(task)
        elif what == "finish" and int(segment) == task.segments[-1] and task in there:
            there.remove(task)
    return None


def rule_of(table, words):
    """What tells failures apart of which `unconstrained` tells."""
    task = table.task_of[int(re.search(r"begins segment (\d+) ", words)[1])]
    return UNDEFERRED if task.undeferred and not task.parent.tied else "unconstrained"


def is_included(task):
    """Whether a task is below a final one."""
    return task.parent is not None and task.parent.final_inside


def is_below(task, other):
    """Whether a task descends from another one."""
    while task.parent:
        task = task.parent
        if task is other:
            return True
    return False
