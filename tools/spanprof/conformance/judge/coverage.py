"""Which rules a run has really tried: how often a rule alone held a segment back, and how close it was.

An accepted run says little of a rule where something else came in between anyhow. Of each segment that has to wait by a
rule, the log tells

- `waits`: that it began after a wait by this rule;
- `held`: that for a while nothing but this rule held it back, and somebody was free to start it. After a taskwait, a
  group or an undeferred task that is the thread that waits; for a dependence, a thread that runs no segment. A runtime
  without the rule could have started it then, and would have been refused;
- `close`: that it was held, and began right after the last finish for which it waited, with at most one event between,
  on another thread than that finish. The two events in the other order would have been refused.

The order of a task's own code and the creation of tasks are not counted: no runtime can start what it was not yet told
of.

Of the rules that put no segment behind another, by rule, construct and measure: `waits` counts what the rule was asked
of, and `held` that of it in which more than one thread took part, or which the rule was needed for. `close` is how
often tasks that exclude one another ran right one after the other, on two threads.
"""
import collections
import itertools

from spanprof.conformance.generate.program import KINDS
from spanprof.conformance.judge.chunks import clause_of
from spanprof.conformance.judge.segments import conflict, dependence_of
from spanprof.conformance.judge.tied import is_below, is_included

TRIED_RULES = ("dependence", "undeferred", "taskwait", "taskgroup")
MEASURES = ("waits", "held", "close")
CLOSE = 2            # events from the finish to the start
MOST_COUNTED = 1000  # segments of a program of which this is counted
OTHERS = (("once", "task"), ("iterations", "taskloop"), ("chunks", "num_tasks"), ("chunks", "grainsize"),
          ("reduction", "taskgroup"), ("reduction", "taskloop"), ("event", "detach"), ("cancel", "taskgroup"),
          ("tied", "task"), ("constraint", "task"), ("exclusion", "mutexinoutset"))


def all_waits(kinds):
    """The rules and constructs by which a segment can wait, in programs with these kinds of items."""
    pairs = itertools.product(sorted({*kinds} & {*KINDS}), repeat=2)
    for undeferred, (kind, then) in itertools.product((False, True), list(pairs)):
        if conflict(((kind, "x"),), ((then, "x"),)):
            yield "dependence", dependence_of(kind, then, undeferred)
    yield from (("undeferred", "if(0)"), ("undeferred", "final"), ("taskwait", "taskwait"))
    yield from (("taskgroup", form) for form in ("taskgroup", "taskloop", "parallel"))


def never(measure, counted, kinds):
    """By which rules and constructs no segment was counted under this measure, on any number of threads. That none goes
    on close to its undeferred task says nothing: both mostly run on one thread."""
    found = {(rule, construct) for rule, construct, under, _ in counted if under == measure}
    return [f"{rule}: {construct}" for rule, construct in all_waits(kinds)
            if (rule, construct) not in found and (measure, rule) != ("close", "undeferred")]


class Coverage:
    """What the runs of one program, given its table of segments, try."""

    def __init__(self, table):
        count = len(table.cost) if len(table.cost) <= MOST_COUNTED else 0
        self.needs = [table.needs(segment) for segment in range(count)]

    def of_run(self, events, threads):
        """Counts by rule, construct and measure, of an accepted run's lines on so many threads."""
        if not self.needs:
            return collections.Counter()
        counts, finished, worker_of = collections.Counter(), {}, {}
        idle, last_idle, running = [], -1, 0
        for place, event in enumerate(events):
            what, worker, segment = event.split()
            segment = int(segment)
            if what == "finish":
                finished[segment], worker_of[segment] = place, worker
                running -= 1
            else:
                self.count_start(segment, Moment(place, worker, finished, worker_of, idle), counts)
                running += 1
            last_idle = place if running < threads else last_idle
            idle.append(last_idle)
        return counts

    def count_start(self, segment, moment, counts):
        by_rule = collections.defaultdict(list)
        for need in self.needs[segment]:
            by_rule[need.rule, need.construct].append(need.before)
        for (rule, construct), befores in by_rule.items():
            if rule in TRIED_RULES:
                others = [before for key, more in by_rule.items() if key != (rule, construct) for before in more]
                counts.update((rule, construct, measure) for measure in moment.measures(rule, befores, others))


class Moment:
    """A start in a log: where, by whom, and what had finished. idle[k] is the last place up to k after which a thread
    ran no segment."""

    def __init__(self, place, worker, finished, worker_of, idle):
        self.place, self.worker, self.finished, self.worker_of, self.idle = place, worker, finished, worker_of, idle

    def measures(self, rule, befores, others):
        """What the start tells of a rule, by which it waited for `befores`, and by other rules for `others`."""
        yield "waits"
        last = max(befores, key=self.finished.get)
        end, begin = self.finished[last], max((self.finished[other] for other in others), default=-1)
        free = rule != "dependence" or self.idle[end - 1] >= begin
        if begin < end and free:
            yield "held"
            if self.place - end <= CLOSE and self.worker != self.worker_of[last]:
                yield "close"


def threads_of(table, events):
    """By its number, the threads on which a task ran."""
    found = collections.defaultdict(set)
    for event in events:
        _, thread, segment = event.split()
        found[table.task_of[int(segment)].number].add(thread)
    return found


def counted(counts, rule, construct, is_held):
    counts.update([(rule, construct, "waits")] + [(rule, construct, "held")] * bool(is_held))


def of_tasks(table, log, counts):
    """What is asked of tasks wherever they run."""
    threads = threads_of(table, log.events)

    def are_apart(tasks):
        return len(set().union(*(threads[task.number] for task in tasks))) > 1

    for task in table.tasks[1:]:
        counted(counts, "once", "task", are_apart([task, task.parent]))
        if task.detached:
            counted(counts, "event", "detach", are_apart([task, *task.children]))
    for form, tasks in table.sums:
        counted(counts, "reduction", "taskgroup" if form == "reduction" else form, are_apart(tasks))
    for taskloop in table.taskloops:
        counted(counts, "chunks", clause_of(taskloop.clause)[0], are_apart(table.task_of[s] for s in taskloop.turns))
    for segment in table.turn_of:
        counted(counts, "iterations", "taskloop", are_apart([table.task_of[segment], table.task_of[segment].parent]))
    for _ in {id(task.cancellers) for task in table.tasks if task.cancellers}:
        counted(counts, "cancel", "taskgroup", log.discarded)


def of_threads(table, log, counts):
    """What is asked of threads: `open_tasks` are the tied ones that have begun there and are not complete."""
    open_tasks, waiting = collections.defaultdict(list), {}
    last_thread = None
    for event in log.events:
        what, thread, segment = event.split()
        task, is_first = table.task_of[int(segment)], int(segment) == table.task_of[int(segment)].segments[0]
        if what == "finish":
            waiting.update((child.number, child) for child in task.children if child.creator == int(segment))
            if int(segment) == task.segments[-1] and task in open_tasks[thread]:
                open_tasks[thread].remove(task)
        elif is_first:
            waiting.pop(task.number, None)
            there = open_tasks[thread]
            if task.tied and there and not task.implicit and not is_included(task):
                counted(counts, "constraint", "task", any(not is_below(other, there[-1]) for other in waiting.values()))
            there += [task] * (task.tied and not task.implicit)
        elif task.tied:
            counted(counts, "tied", "task", last_thread != thread)
        last_thread = thread


def of_exclusive(table, log, counts):
    ended = {}  # by parent and location, where and when the last task with it ended
    for place, event in enumerate(log.events):
        what, thread, segment = event.split()
        task = table.task_of[int(segment)]
        for key in ((id(task.parent), location) for location in task.exclusive):
            if what == "finish" and int(segment) == task.segments[-1]:
                ended[key] = place, thread
            elif what == "start" and int(segment) == task.segments[0] and key in ended:
                before, other = ended[key]
                counted(counts, "exclusion", "mutexinoutset", other != thread)
                counts["exclusion", "mutexinoutset", "close"] += other != thread and place - before <= CLOSE


def other_rules(table, log):
    """All counts of a run."""
    counts = collections.Counter()
    of_tasks(table, log, counts)
    of_threads(table, log, counts)
    if any(task.exclusive for task in table.tasks):
        of_exclusive(table, log, counts)
    return counts
