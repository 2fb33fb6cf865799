"""The recorded run once more, without what the recorder and other programs took of it. A segment begins as long after
its thread was free, and what it waits for was over, as it did: so the waits that a model leaves out are in it."""
from spanprof.predict.program import CREATE, END, WAIT, WORK

# A record in its place takes so many times what it takes in a loop of records (`clock reading`), whose code and lines
# are at hand: an empty undeferred task, of four records, took 200 ns more with the recorder, and one in the loop 20.
IN_PLACE = 2.5
NEVER = 0, 0    # moments: as recorded, and now


def later(*moments):
    return tuple(map(max, zip(*moments)))


def without_lock(program):
    """The segments that a record begins which no lock hides: of undeferred tasks, behind these, and behind waits for
    no other ones. Elsewhere threads wait for gcc's lock of all tasks while one is in the recorder."""
    found = set()
    for number, task in enumerate(program.tasks):
        found.update([task.steps[0][1]] * (number > 0 and task.is_undeferred))
        is_free = True
        for (kind, of), (_, segment) in zip(task.steps, task.steps[1:]):
            is_undeferred = kind == CREATE and program.tasks[of].is_undeferred
            is_free &= kind in (WORK, WAIT) or is_undeferred
            if is_undeferred or kind == WAIT and is_free:
                found.add(segment)
    return found


class Replay:
    """`record` is what one takes."""

    def __init__(self, times, record):
        self.times, self.program, self.record = times, times.program, record
        tasks = self.program.tasks
        self.over, self.free = {}, {}   # moments, by segment and by thread
        self.children, self.groups = [NEVER] * len(tasks), [NEVER] * self.program.groups
        self.ends = {task.steps[-1][1]: number for number, task in enumerate(tasks)}
        self.awaited, self.resumed = {}, {}     # by segment: others, and the task and the group that is waited for
        self.light = without_lock(self.program)
        for number, task in enumerate(tasks):
            self.find_waits(number, task)

    def first(self, number):
        return self.program.first_segment(number)

    def find_waits(self, number, task):
        for follower in task.followers:
            self.awaited.setdefault(self.first(follower), []).append(task.steps[-1][1])
        before = None
        for (kind, of), (_, segment) in zip(task.steps, task.steps[1:]):
            before = of if kind == WORK else before
            if kind == CREATE and not self.program.tasks[of].is_undeferred:
                self.awaited.setdefault(self.first(of), []).append(before)
            elif kind in (WAIT, END):
                self.resumed[segment] = number, of if kind == END else None

    def ready(self, segment):
        """When all that it waits for is over."""
        if segment in self.resumed:
            task, group = self.resumed[segment]
            return self.children[task] if group is None else self.groups[group]
        return later(NEVER, *(self.over.get(one, NEVER) for one in self.awaited.get(segment, ())))

    def take(self, begin, end, thread, segment):
        less = self.record if segment in self.light else 0
        ready = later(self.free.get(thread, (begin, begin)), self.ready(segment))
        begun = ready[1] + max(begin - ready[0] - less, 0)
        moment = end, begun + max(self.program.costs[segment] - less, 0)
        self.over[segment] = self.free[thread] = moment
        if segment in self.ends:
            self.end(self.program.tasks[self.ends[segment]], moment)

    def end(self, task, moment):
        if task.parent >= 0:
            self.children[task.parent] = later(self.children[task.parent], moment)
        for group in task.groups:
            self.groups[group] = later(self.groups[group], moment)

    def run(self):
        """From the first segment's begin until the last one's end."""
        rows = sorted((begin, end, thread, segment) for thread, found in self.times.by_thread.items()
                      for begin, end, segment in found)
        for row in rows:
            self.take(*row)
        return max(now for _, now in self.over.values()) - rows[0][0]


def replayed(times, clock_reading):
    return Replay(times, round(IN_PLACE * clock_reading)).run()
