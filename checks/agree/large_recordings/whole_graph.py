"""Work and span of a program text of version 1 by a plain program that keeps the whole graph: of each segment its cost
and a list of those that it follows. Nothing of spanprof or of the recorder is used, and there are no limits."""
import re
from dataclasses import dataclass, field

WORDS = re.compile(r"[A-Za-z0-9_]+|[{}(),:]")
SHARED = ("in", "inoutset")  # tasks with equal items of these types do not exclude each other


@dataclass
class Graph:
    tasks: int = 0
    costs: list = field(default_factory=list)
    before: list = field(default_factory=list)  # of each segment, the segments that it follows

    def add(self, before):
        self.costs.append(0)
        self.before.append(before)
        return len(self.costs) - 1

    @property
    def work(self):
        return sum(self.costs)

    @property
    def span(self):
        """Segments come after all that they follow, so one pass finds the longest chain."""
        ends = []
        for cost, before in zip(self.costs, self.before):
            ends.append(cost + max((ends[s] for s in before), default=0))
        return max(ends)

    def numbers(self):
        return {"tasks": self.tasks, "segments": len(self.costs), "work": self.work, "span": self.span}


class Task:
    """An open task: its open segment, and what was made so far."""
    __slots__ = ("segment", "undeferred", "named", "lasts", "names")

    def __init__(self, segment, undeferred=False, named=()):
        self.segment, self.undeferred, self.named = segment, undeferred, named
        self.lasts = []   # the last segments of its children since its last taskwait
        self.names = {}   # of each name the last two batches of children that share it: type, last segments


class Reader:
    def __init__(self, lines):
        self.words = (word for line in lines for word in WORDS.findall(line.partition("#")[0]))
        self.graph = Graph()
        self.open = [Task(self.graph.add([]))]
        self.blocks = []  # None for a task, for a group the last segments of the tasks in it

    def read(self):
        next(self.words), next(self.words)  # the header
        for word in self.words:
            if word == "work":
                self.graph.costs[self.open[-1].segment] += int(next(self.words))
            elif word == "task":
                self.begin_task()
            elif word == "taskgroup":
                next(self.words)
                self.blocks.append([])
            elif word == "taskwait":
                self.go_on(self.open[-1].lasts)
                self.open[-1].lasts = []
            else:
                self.end_block()
        return self.graph

    def go_on(self, after):
        """The running task's next segment."""
        task = self.open[-1]
        task.segment = self.graph.add([task.segment] + after)

    def clauses(self):
        """Whether the task is undeferred, and its items as pairs of type and name."""
        undeferred, items, kind = False, [], ""
        for word in self.words:
            if word == "{":
                return undeferred, items
            if word == "if":
                next(self.words)
                undeferred = int(next(self.words)) == 0
                next(self.words)
            elif word == "depend":
                next(self.words)
                kind = next(self.words)
            elif word not in ",:)":
                items.append((kind, word))

    def begin_task(self):
        undeferred, items = self.clauses()
        maker = self.open[-1]
        before = [maker.segment]
        joined = [self.join(maker.names, kind, name, before) for kind, name in items]
        self.open.append(Task(self.graph.add(before), undeferred, joined))
        self.blocks.append(None)
        self.graph.tasks += 1

    @staticmethod
    def join(names, kind, name, before):
        """The batch that a task joins at a name; it follows the batch before."""
        earlier, latest = names.get(name, (("", []), ("", [])))
        if kind not in SHARED or kind != latest[0]:
            earlier, latest = latest, (kind, [])
            names[name] = (earlier, latest)
        before.extend(earlier[1])
        return latest[1]

    def end_task(self):
        task = self.open.pop()
        for batch in task.named:
            batch.append(task.segment)
        self.open[-1].lasts.append(task.segment)
        for group in reversed(self.blocks):
            if group is not None:
                group.append(task.segment)
                break
        self.go_on([task.segment] if task.undeferred else [])

    def end_block(self):
        group = self.blocks.pop()
        if group is None:
            return self.end_task()
        for outer in reversed(self.blocks):
            if outer is not None:
                outer.extend(group)
                break
        return self.go_on(group)


def read(lines):
    """The graph of a text, which comes line by line."""
    return Reader(lines).read()
