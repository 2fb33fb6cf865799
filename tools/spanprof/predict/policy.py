"""A run of a program as LLVM's runtime would schedule it.

A thread takes the task that it has put last into its own queue; where there is none it steals the oldest one of
another thread's. A task stays on the thread that began it, and a thread that waits in a task begins only tasks below
that one. A task that finds the queue full is run at once. The simulation is a model, of which nothing is proved.
"""
import heapq
import random
from collections import deque
from dataclasses import dataclass

from spanprof.predict.program import BEGIN, CREATE, END, WAIT, WORK

QUEUE = 256     # tasks in a thread's queue


@dataclass(frozen=True)
class Spent:
    """What the runtime spends, in the text's unit, beside what stands in the text."""
    steal: int = 0      # on a task that another thread has queued
    wake: int = 0       # until an idle thread sees what it has waited for
    lock: int = 0       # of the team's tasks, which a task takes where the runtime has one (gcc's)


@dataclass(frozen=True)
class Simulated:
    end: int
    steals: int
    dispatches: int


class Simulation:
    """One run. What a thread does is a stack of tasks, each with the number of its next step. `arrivals` are when the
    threads come, 0 without it."""

    def __init__(self, program, costs, threads, spent=Spent(), seed=0, arrivals=()):
        self.tasks, self.costs, self.spent, self.threads = program.tasks, costs, spent, threads
        self.random = random.Random(seed)
        self.awaits = [task.awaits for task in self.tasks]
        self.is_made = [False] * len(self.tasks)
        self.children, self.members = [0] * len(self.tasks), [0] * program.groups
        self.queues, self.stacks = [deque() for _ in range(threads)], [[] for _ in range(threads)]
        self.victims = [None] * threads
        self.idle, self.events, self.now, self.last = list(range(1, threads)), [(0, 0, 0)], 0, 0
        self.number = self.steals = self.dispatches = 0
        self.at_once = {number for number, task in enumerate(self.tasks) if task.is_undeferred}
        self.wait_for_threads(arrivals[:threads])
        self.stacks[0].append([0, 0])
        self.does = {WORK: self.work, CREATE: self.create, WAIT: self.wait, BEGIN: self.begin, END: self.end}

    def run(self):
        while self.events:
            self.now, _, thread = heapq.heappop(self.events)
            self.go_on(thread)
        assert not any(self.stacks), "a task has not ended"
        return Simulated(self.last, self.steals, self.dispatches)

    def wait_for_threads(self, arrivals):
        """A thread that comes later than the first is not idle before."""
        for thread, moment in enumerate(arrivals):
            if thread and moment:
                self.idle.remove(thread)
                self.at(moment, thread)

    def at(self, moment, thread):
        self.number += 1
        heapq.heappush(self.events, (moment, self.number, thread))

    def go_on(self, thread):
        """Until the thread spends time, or has nothing to do. Each step answers the time, or None for nothing."""
        stack, tasks, does = self.stacks[thread], self.tasks, self.does
        spent = 0
        while spent == 0:
            if not stack:
                spent = self.take(thread)
                continue
            frame = stack[-1]
            steps = tasks[frame[0]].steps
            if frame[1] == len(steps):
                spent = self.finish(thread)
            else:
                kind, of = steps[frame[1]]
                spent = does[kind](thread, frame, of)
        if spent is None:
            self.idle.append(thread)
        else:
            self.at(self.now + spent, thread)

    def work(self, _, frame, segment):
        frame[1] += 1
        return self.costs[segment]

    def begin(self, _, frame, __):
        frame[1] += 1
        return 0

    def wait(self, thread, frame, _):
        if self.children[frame[0]]:
            return self.take(thread)
        frame[1] += 1
        return 0

    def end(self, thread, frame, group):
        if self.members[group]:
            return self.take(thread)
        frame[1] += 1
        return 0

    def create(self, thread, frame, number):
        made = self.tasks[number]
        if not self.is_made[number]:
            self.is_made[number] = True
            self.children[made.parent] += 1
            for group in made.groups:
                self.members[group] += 1
        if self.awaits[number] and number in self.at_once:
            return self.take(thread)
        frame[1] += 1
        if number in self.at_once:
            self.stacks[thread].append([number, 0])
        elif not self.awaits[number]:
            self.put(thread, number)
        return 0

    def put(self, thread, number):
        """A task that may begin goes into the thread's queue."""
        queue = self.queues[thread]
        if len(queue) >= QUEUE:
            self.stacks[thread].append([number, 0])
            return
        queue.append(number)
        self.wake([other for other in self.idle if self.may_begin(other, number)])

    def wake(self, threads):
        for thread in threads:
            self.idle.remove(thread)
            self.at(self.now + self.spent.wake, thread)

    def waits_no_more(self, thread):
        """Whether what an idle thread waits for in a task has come."""
        if not self.stacks[thread]:
            return False
        number, step = self.stacks[thread][-1]
        kind, of = self.tasks[number].steps[step]
        return not (self.children[number] if kind == WAIT else self.members[of] if kind == END else self.awaits[of])

    def finish(self, thread):
        number = self.stacks[thread].pop()[0]
        task = self.tasks[number]
        self.last = max(self.last, self.now)
        if number:
            self.children[task.parent] -= 1
            is_awaited = not self.children[task.parent]
            for group in task.groups:
                self.members[group] -= 1
                is_awaited |= not self.members[group]
            is_awaited |= self.release(thread, task)
            if is_awaited:
                self.wake([other for other in self.idle if self.waits_no_more(other)])
        return 0

    def release(self, thread, task):
        """Those that waited for the task by `depend`; whether one of them is undeferred, and its maker waits."""
        found = False
        for number in task.followers:
            self.awaits[number] -= 1
            if not self.awaits[number] and self.is_made[number]:
                if number in self.at_once:
                    found = True
                else:
                    self.put(thread, number)
        return found

    def may_begin(self, thread, number):
        """Whether it is below the task in which the thread waits."""
        stack, tasks = self.stacks[thread], self.tasks
        if not stack or not stack[-1][0]:
            return True
        waiting = stack[-1][0]
        depth = tasks[waiting].depth
        while tasks[number].depth > depth:
            number = tasks[number].parent
        return number == waiting

    def take(self, thread):
        """Begins a task; None where there is none."""
        queue = self.queues[thread]
        if queue and self.may_begin(thread, queue[-1]):
            self.dispatches += 1
            self.stacks[thread].append([queue.pop(), 0])
            return 0
        number = self.steal(thread)
        if number is None:
            return None
        self.dispatches += 1
        self.steals += 1
        self.stacks[thread].append([number, 0])
        return self.spent.steal

    def steal(self, thread):
        """The oldest task of another's queue that may begin here, first of that thread from which it came last."""
        others = [other for other, queue in enumerate(self.queues) if queue and other != thread]
        if len(others) > 1:
            self.random.shuffle(others)
            others.sort(key=lambda other: other != self.victims[thread])
        for other in others:
            queue = self.queues[other]
            at = next((i for i, number in enumerate(queue) if self.may_begin(thread, number)), None)
            if at is not None:
                number = queue[at]
                del queue[at]
                self.victims[thread] = other
                self.wake([other] if other in self.idle else [])    # it may have another task at its end now
                return number
        self.victims[thread] = None
        return None
