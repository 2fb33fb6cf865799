"""What the times of a recording tell of its threads: when they come, and what the runtime takes to begin a task and to
go on behind a wait.

The runtime starts or wakes the threads of a region one after the other, and meanwhile the first one is at work: on a
short region that is a good part of its time.
"""
from math import inf

from spanprof.predict.program import CREATE, END, WAIT, WORK

MOST_GAP = 20000    # nanoseconds: what is longer is another program's turn, and nothing of the runtime
LEAST_GAPS = 10
MOST_STEP = 100000  # from one thread's coming to the next one's, on another number of threads than were recorded


class Times:
    """Of a recording's segments, in nanoseconds."""

    def __init__(self, program, rows):
        self.program = program
        self.begins, self.ends = {row[0]: row[2] for row in rows}, {row[0]: row[3] for row in rows}
        self.by_thread = {}
        for segment, thread, begin, end in rows:
            self.by_thread.setdefault(thread, []).append((begin, end, segment))
        for one in self.by_thread.values():
            one.sort()
        self.ready = self.ready_at()

    def ready_at(self):
        """When each task could begin: it was made, and those that it waits for had ended."""
        ready = [0] * len(self.program.tasks)
        for task in self.program.tasks:
            for (_, segment), (kind, number) in zip(task.steps, task.steps[1:]):
                if kind == CREATE:
                    ready[number] = max(ready[number], self.ends[segment])
            for follower in task.followers:
                ready[follower] = max(ready[follower], self.over(task))
        return ready

    def over(self, task):
        return self.ends[task.steps[-1][1]]

    def groups_over(self):
        over = [0] * self.program.groups
        for task in self.program.tasks:
            for group in task.groups:
                over[group] = max(over[group], self.over(task))
        return over

    def resumed_at(self):
        """When each segment behind a wait could begin: the code before it, and what it waits for, had ended."""
        groups, out = self.groups_over(), {}
        for task in self.program.tasks:
            code = children = 0
            for (kind, of), (_, segment) in zip(task.steps, task.steps[1:]):
                if kind == WORK:
                    code = self.ends[of]
                elif kind == CREATE:
                    children = max(children, self.over(self.program.tasks[of]))
                elif kind in (WAIT, END):
                    out[segment] = max(code, children if kind == WAIT else groups[of])
        return out

    def deferred(self):
        """By their first segment."""
        return {self.program.first_segment(number): number for number, task in enumerate(self.program.tasks)
                if number and not task.is_undeferred}

    def lay_ready_until(self):
        """Until when, from the first task on, some task always lay ready."""
        lain = sorted((self.ready[number], self.begins[segment]) for segment, number in self.deferred().items())
        until = lain[0][0] if lain else 0
        for ready, begin in lain:
            if ready > until:
                break
            until = max(until, begin)
        return until

    def arrivals(self):
        """Sorted, after the first segment's begin. A thread was not there while a task always lay ready that it did
        not begin; later, nothing tells it from a thread that had nothing to do."""
        first = [one[0][0] for one in self.by_thread.values()]
        start, until = min(first), self.lay_ready_until()
        return tuple(sorted(max(min(one, until) - start, 0) for one in first))

    def gaps(self, ready):
        """The times between two segments of a thread where the second one could begin before, by when each could."""
        for one in self.by_thread.values():
            for (_, end, _), (begin, _, segment) in zip(one, one[1:]):
                if ready.get(segment, inf) <= end and begin - end <= MOST_GAP:
                    yield begin - end

    def begun_at(self):
        """When the first segment of each task could begin."""
        return {segment: self.ready[number] for segment, number in self.deferred().items()}

    def dispatch(self):
        """What the runtime takes to begin a task, wherever it lay, with what the recorder takes there."""
        return mean(list(self.gaps(self.begun_at())))

    def resumption(self):
        """What it takes to go on behind a wait that is over."""
        return mean(list(self.gaps(self.resumed_at()))) or 0


def mean(gaps):
    """Since they add up. None where too few tell it."""
    return sum(gaps) // len(gaps) if len(gaps) >= LEAST_GAPS else None


def times_of(program, rows):
    """None where times and text are not of the same segments."""
    return Times(program, rows) if len({row[0] for row in rows}) == len(program.costs) else None


def on_threads(found, recorded, threads):
    """Arrivals on some threads, of a recording on so many. On another number they come one after the other: that one
    waited for milliseconds until the system gave it a processor was so on that number, or by chance."""
    if len(found) < 2:
        return ()
    step = found[-1] // (len(found) - 1)
    if threads != recorded:
        return tuple(min(step, MOST_STEP) * i for i in range(threads))
    return tuple(found[:threads]) + tuple(found[-1] + step * i for i in range(1, threads - len(found) + 1))
