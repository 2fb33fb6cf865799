"""A text with what the runtime takes for each task put where it falls, as `work`.

A deferred task has the dispatch before its code, and what follows a wait on gcc's runtime has what that takes. What
creating a task takes stands in the code of its parent as it was recorded. A steal hangs on the schedule and stands in
no text.
"""
import json

from spanprof.head import comments
from spanprof.predict.program import END, WAIT
from spanprof.program_text import Statement, as_text, statements

KEPT = ("recorded: {", "region: ", "place: ")  # lines of the head


def burdened(program, costs, dispatch, resumption=0):
    """The costs with the dispatch of each deferred task, and with what it takes to go on behind each wait."""
    out = list(costs)
    for number, task in enumerate(program.tasks):
        if number and not task.is_undeferred:
            out[program.first_segment(number)] += dispatch
        for (kind, _), (_, segment) in zip(task.steps, task.steps[1:]):
            if kind in (WAIT, END):
                out[segment] += resumption
    return out


def with_costs(stream, costs):
    """The statements, where segment s costs `costs[s]`."""
    left = iter(costs)
    yield Statement("work", cost=next(left))
    for one in stream:
        if one.kind != "work":
            yield one
        if one.kind not in ("work", "taskgroup"):
            yield Statement("work", cost=next(left))


def text_with(head, text, costs):
    """A text of version 1 with these lines as its head, and these costs."""
    body = as_text(with_costs(statements(text.split("\n")), costs))
    return "".join("# %s\n" % line for line in head) + body


def in_nanoseconds(line):
    """A line of a head, for costs in that unit."""
    name, _, value = line.partition(": ")
    return line if name != "recorded" else "%s: %s" % (name, json.dumps({**json.loads(value), "unit": "ns"}))


def burdened_text(text, costs, remark=""):
    """A text of version 1 with these costs, in nanoseconds; its head tells where the text is from, and the remark."""
    head = [in_nanoseconds(line) for line in comments(text) if line.startswith(KEPT)]
    return text_with(head + ["remark: " + remark] * bool(remark), text, costs)
