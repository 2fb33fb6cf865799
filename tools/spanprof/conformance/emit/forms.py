"""How statements are written in C: as the constructs that they ask for, where their bodies allow that; and the heads of
loops. Those of taskloops count in several ways, which are different functions of a runtime: gcc calls the one for
numbers without a sign where it does not know a bound.
"""

from spanprof.conformance.generate.program import Group, Loop, Task, Work

INT = "for (int {v} = {first}; {v} <= {last}; {v}++) {{"
# What a taskloop's head is, in turn by its first turn and their number.
HEADS = ("for (unsigned long long {v} = {first}; {v} <= {last}ull * conformance_yes; {v}++) {{",
         "for (int {v} = {last}; {v} >= {first}; {v}--) {{",
         "for (unsigned long long {v} = {last}ull * conformance_yes; {v} >= {first}; {v}--) {{",
         INT)
DOWN = (1, 2)  # the places of those that count down
GROUP_FORMS = ("taskgroup", "taskyield", "taskloop", "parallel", "reduction")
LOOP_FORMS = ("for", "taskloop")


def filled(head, loop):
    return head.format(v=f"v_{loop.var}", first=loop.first, last=loop.last)


def head_of(loop):
    return filled(INT, loop)


def head_in_turn(loop):
    """The place of a taskloop's head. A number without a sign is never less than 0, so none counts down to 0."""
    place = (loop.first + loop.turns) % len(HEADS)
    return place if loop.first > 0 or "unsigned" not in HEADS[place] else HEADS.index(INT)


def head_of_taskloop(loop):
    return filled(HEADS[head_in_turn(loop)], loop)


def counts_down(loop):
    """Whether a taskloop in C begins with the last turn of the text's loop."""
    return head_in_turn(loop) in DOWN


def written_chunks(chunks, loop):
    """The clause by which a taskloop's turns become tasks: one for each turn where the text says nothing."""
    if chunks == "any":
        return ""
    return " " + (chunks or f"num_tasks({loop.turns})").replace("strict:", "STRICT ")


def is_plain(node):
    """Whether a statement is a task without `if(0)` and without depend items, as the tasks of a taskloop are."""
    return isinstance(node, Task) and not node.undeferred and not node.items


def is_wait_for_items(node):
    """Whether a statement is an undeferred task that only waits for its items, and is to be written as a taskwait."""
    return isinstance(node, Task) and "taskwait" in node.clauses and node.undeferred and bool(node.items) and \
        not node.body and not node.final


def kind_in_c(kind, task):
    """The kind of an item of a task in C. Tasks of one `inoutset` may run in any order, and so may those of one
    `mutexinoutset`, one at a time."""
    return "mutexinoutset" if kind == "inoutset" and "mutexinoutset" in task.clauses else kind


def only_works(body):
    return all(isinstance(node, Work) for node in body)


def is_detached(node):
    """Whether a statement is a task that an event completes: it works, it has an undeferred task that works, and it
    works. In C the undeferred task is one that is deferred, and its end fulfils the event."""
    if not isinstance(node, Task) or "detach" not in node.clauses or "mergeable" in node.clauses:
        return False
    tasks = [inner for inner in node.body if not isinstance(inner, Work)]
    return not node.undeferred and not node.final and len(tasks) == 1 and isinstance(tasks[0], Task) and \
        tasks[0].undeferred and not tasks[0].items and not tasks[0].final and only_works(tasks[0].body)


def is_target(node):
    """Whether a statement is a deferred task that only works, and is to be written as one of `target nowait`."""
    return isinstance(node, Task) and "target" in node.clauses and not node.undeferred and not node.final and \
        only_works(node.body)


def adds(node):
    """Whether a statement is a task that adds to the sum of a group around it, if that has one."""
    return isinstance(node, Task) and not is_wait_for_items(node) and "detach" not in node.clauses and \
        not is_target(node)


def addends(body):
    """How many tasks of a body add to its group's sum."""
    loops = sum(node.turns * addends(node.body) for node in body if isinstance(node, Loop) and form_of(node) == "for")
    return loops + sum(map(adds, body))


def cancels(node):
    return isinstance(node, Task) and "cancels" in node.clauses


def is_cancelled(node):
    """Whether a group is cancelled by tasks right in it: one of tasks, loops, waits and groups alone, in which every
    task is deferred, so that none is waited for by the code that would create it."""
    return form_of(node) == "taskgroup" and all(map(may_be_discarded, node.body)) and has_canceller(node.body)


def has_canceller(body):
    return any(cancels(node) or isinstance(node, Loop) and node.turns and has_canceller(node.body) for node in body)


def may_be_discarded(node):
    """Whether a statement may be missing in a run of its group."""
    if isinstance(node, Task):
        is_plain_one = not node.undeferred and not node.final and not {"detach", "target"} & set(node.clauses)
        return is_plain_one and all(map(may_be_discarded, node.body))
    if isinstance(node, (Group, Loop)):
        return form_of(node) in ("taskgroup", "for") and all(map(may_be_discarded, node.body))
    return True


def is_task_loop(node):
    """Whether a statement is a loop of plain tasks and nothing else."""
    return isinstance(node, Loop) and node.turns > 0 and len(node.body) == 1 and is_plain(node.body[0])


def form_of(node):
    """The construct that a group or loop is written as: the one that it asks for, where its body allows that."""
    if isinstance(node, Loop):
        return construct_of(node) if is_task_loop(node) else "for"
    allowed = {"taskgroup": True,
               "taskyield": not node.body,
               "taskloop": len(node.body) == 1 and is_task_loop(node.body[0]),
               "reduction": addends(node.body) > 0,
               "parallel": bool(node.body) and all(is_plain(task) and not task.final for task in node.body)}
    return construct_of(node) if allowed[construct_of(node)] else "taskgroup"


def construct_of(node):
    """The construct that a group or loop asks for."""
    return node.form.partition(" ")[0]


def chunks_of(node):
    """The clause by which a taskloop puts several turns into a task, or nothing."""
    clause = node.form.partition(" ")[2] if form_of(node) == "taskloop" else ""
    return clause if clause != "reduction" else ""


def has_sum(node):
    """Whether a taskgroup or a taskloop with its group has a sum, to which its tasks add."""
    return form_of(node) == "reduction" or form_of(node) == "taskloop" and node.form.endswith(" reduction")


def is_of_regions(body):
    """Whether a root's body is work and parallel regions alone, so that it runs outside of any region."""
    groups = [node for node in body if not isinstance(node, Work)]
    return bool(groups) and all(isinstance(node, Group) and form_of(node) == "parallel" for node in groups)
