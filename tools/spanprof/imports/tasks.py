"""Tasks as other tools tell them: who precedes whom, and when each ran."""
import heapq
from collections import deque
from dataclasses import dataclass, field, replace
from typing import Hashable, List, Optional

from spanprof.command import Fault

MOST_BEFORE = 31    # of a task's 32 depend items one is its own
SHOWN = 4           # members of a cycle


@dataclass
class Task:
    """Times are in nanoseconds. A task without them has no code, and only joins those before it."""
    name: str = ""
    at: str = ""                # the file and the line that tell of it
    begin: Optional[int] = None
    end: Optional[int] = None
    worker: Hashable = None     # None where it is not known
    before: List[int] = field(default_factory=list)     # the numbers of tasks that precede it

    @property
    def cost(self):
        return 0 if self.begin is None else self.end - self.begin


@dataclass
class Imported:
    """What the files of a tool tell."""
    tool: str
    tasks: List[Task]
    no_times: str = ""          # why the times are not those of one run
    notes: List[str] = field(default_factory=list)


def timed(at, name, begin, end, worker=None):
    """A task with code; a fault names the file and the line."""
    if begin < 0:
        raise Fault("%s: %s begins at a negative time" % (at, name))
    if end < begin:
        raise Fault("%s: %s ends before it begins" % (at, name))
    return Task(name, at, begin, end, worker)


def no_order(tasks, left):
    """The fault of a graph with a cycle: some of these that wait for each other, the first one twice."""
    here, seen = min(left), {}
    while here not in seen:
        seen[here] = len(seen)
        here = next(first for first in tasks[here].before if first in left)
    members = [tasks[number] for number in (*list(seen)[seen[here]:], here)]
    names = [one.name or "a task without code" for one in members]
    shown = names if len(names) <= SHOWN else names[:SHOWN - 1] + ["..", names[-1]]
    at = next((one.at for one in members if one.at), "the graph")
    return Fault("%s: tasks wait for each other in a cycle: %s" % (at, " for ".join(shown)))


def order_of(tasks):
    """Their numbers, each behind those before it, else by begins; what joins comes as soon as it can."""
    left, after = {}, [[] for _ in tasks]
    for number, task in enumerate(tasks):
        left[number] = len(set(task.before))
        for first in set(task.before):
            after[first].append(number)
    ready = [(-1 if tasks[n].begin is None else tasks[n].begin, n) for n, count in left.items() if not count]
    heapq.heapify(ready)
    order = []
    while ready:
        number = heapq.heappop(ready)[1]
        order.append(number)
        del left[number]
        for other in after[number]:
            left[other] -= 1
            if not left[other]:
                heapq.heappush(ready, (-1 if tasks[other].begin is None else tasks[other].begin, other))
    if left:
        raise no_order(tasks, left)
    return order


def in_order(tasks):
    """The same, each behind those before it. Where a task has more of them than depend items, others join them."""
    out, numbers = [], {}
    for old in order_of(tasks):
        before = deque(dict.fromkeys(numbers[first] for first in tasks[old].before))
        while len(before) > MOST_BEFORE:
            out.append(Task(before=[before.popleft() for _ in range(MOST_BEFORE)]))
            before.append(len(out) - 1)
        numbers[old] = len(out)
        out.append(replace(tasks[old], before=list(before)))
    return out
