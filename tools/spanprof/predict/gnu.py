"""A run of a program as gcc's runtime would schedule it.

One lock guards the tasks of the whole team. A thread with nothing to do takes the oldest task. One that waits in a task
for its children begins only these, the newest first, and at the end of a group only the group's. Where more than 64
tasks for each thread lie ready or are running, a new one is run at once, and where with all of a taskloop there were
more, all of that.
"""
from collections import Counter, deque

from spanprof.predict.policy import Simulation
from spanprof.predict.program import END

MOST = 64       # tasks for each thread
# Nanoseconds of the lock that a task takes with gcc 12's runtime, beside what its creation takes with LLVM's, as it
# stands in a recording: measured on four processors of an Intel Xeon at 2.5 GHz.
LOCK = 410


class GnuSimulation(Simulation):
    def __init__(self, program, costs, threads, spent, seed=0, arrivals=()):
        super().__init__(program, costs, threads, spent, seed, arrivals)
        self.team, self.is_ready = deque(), set()
        self.newest, self.of_group = [[] for _ in self.tasks], [[] for _ in range(program.groups)]
        self.count, self.lock_free = 0, 0
        self.loops = Counter(task.groups[-1] for task in self.tasks if task.is_of_loop)     # how many tasks, by group
        self.is_loop_at_once = {}

    def create(self, thread, frame, number):
        if not self.is_made[number] and self.is_run_at_once(self.tasks[number]):
            self.at_once.add(number)
        return super().create(thread, frame, number)

    def is_run_at_once(self, task):
        most = MOST * self.threads
        if not task.is_of_loop:
            return self.count > most
        loop = task.groups[-1]
        return self.is_loop_at_once.setdefault(loop, self.count + self.loops[loop] > most)

    def put(self, thread, number):
        """Threads with nothing to do see it. One that sleeps in a task does not: it is woken by what it waits for."""
        task = self.tasks[number]
        self.count += 1
        self.is_ready.add(number)
        self.team.append(number)
        self.newest[task.parent].append(number)
        if task.groups:
            self.of_group[task.groups[-1]].append(number)
        self.wake([other for other in self.idle if not self.stacks[other]])

    def release(self, thread, task):
        """Of what a task was waited for by `depend`, the sleeping threads are woken that may begin it."""
        found = super().release(thread, task)
        for number in self.is_ready.intersection(task.followers):
            self.wake([other for other in self.idle if self.may_begin(other, number)])
        return found

    def waits_in(self, thread):
        """The task in which a thread waits, and the group whose end it waits for, or None."""
        number, step = self.stacks[thread][-1]
        kind, of = self.tasks[number].steps[step]
        return number, of if kind == END else None

    def may_begin(self, thread, number):
        if not self.stacks[thread]:
            return True
        waiting, group = self.waits_in(thread)
        return self.tasks[number].parent == waiting if group is None else group in self.tasks[number].groups[-1:]

    def take(self, thread):
        """Begins a task, when the lock is free; None where there is none."""
        if not self.stacks[thread]:
            found = self.first_ready(self.team, self.team.popleft)
        else:
            waiting, group = self.waits_in(thread)
            one = self.newest[waiting] if group is None else self.of_group[group]
            found = self.first_ready(one, one.pop)
        if found is None:
            return None
        self.is_ready.remove(found)
        self.dispatches += 1
        self.stacks[thread].append([found, 0])
        self.lock_free = max(self.now, self.lock_free) + self.spent.lock
        return self.lock_free - self.now

    def first_ready(self, queue, taken):
        """A task that lies in several queues is left in the others."""
        while queue:
            number = taken()
            if number in self.is_ready:
                return number
        return None

    def finish(self, thread):
        number = self.stacks[thread][-1][0]
        self.count -= number != 0 and number not in self.at_once
        return super().finish(thread)
