"""The rule of cancelled groups, which spanprof's text does not have: once a task has cancelled the group in which it
was created, those tasks of the group that have not begun may never do so. Each of these counts as one that runs as soon
as it may after that, on a thread of its own: a log gets its events there, and spanprof decides on the whole."""
from dataclasses import replace

MASK = 2 ** 64 - 1
MOST_TURNS = 4096   # as in harness/values.c
MOST_THREADS = 64   # that spanprof counts


class Discarded:
    """The tasks of a log that never began, and that the rule allows to be left out."""

    def __init__(self, table, events):
        self.table, self.finished = table, set()
        begun = {int(event.split()[2]) for event in events}
        self.allowed = {}
        for task in table.tasks:   # parents come first
            if task.segments[0] not in begun and (task.cancellers or id(task.parent) in self.allowed):
                self.allowed[id(task)] = task
        self.waiting = [segment for task in self.allowed.values() for segment in task.segments]
        self.needs = {s: {need.before for need in table.needs(s)} for s in self.waiting}

    def may_end(self, segment):
        """Whether the segment of a task that was left out may be taken for run, after what has finished so far."""
        task = self.table.task_of[segment]
        is_cancelled = id(task.parent) in self.allowed or any(c.segments[-1] in self.finished for c in task.cancellers)
        return is_cancelled and self.needs[segment] <= self.finished

    def after(self, segments):
        """The segments that may be taken for run now that these have finished, in order."""
        self.finished |= set(segments)
        found, more = [], True
        while more:
            more = [segment for segment in sorted(self.waiting) if self.may_end(segment)]
            self.finished |= set(more)
            self.waiting = [segment for segment in self.waiting if segment not in self.finished]
            found += more
        return found


def may_discard(table):
    return any(task.cancellers for task in table.tasks)


def completed(table, log):
    """The log with the events of the tasks that were discarded; one that is cut short stays as it is."""
    if not may_discard(table):
        return log
    events = [event for event in log.events if event != "overflow"]
    known = all(int(event.split()[2]) < len(table.cost) for event in events)
    if not known or len(events) < len(log.events):
        return log
    left_out = Discarded(table, events)
    thread = 1 + max((int(event.split()[1]) for event in events), default=0)
    if not left_out.waiting or thread >= MOST_THREADS:
        return log
    made, found = [], []
    for event in events if not log.unlogged else sorted(events, key=lambda event: event.startswith("finish")):
        made.append(event)
        what, _, segment = event.split()
        some = left_out.after([int(segment)]) if what == "finish" else []
        made += [f"{word} {thread} {number}" for number in some for word in ("start", "finish")]
        found += some
    return replace(log, events=made, discarded=sorted(found))


def without_discarded(log):
    """The events of a log that were there."""
    discarded = set(log.discarded)
    return [event for event in log.events if int(event.split()[2]) not in discarded] if discarded else log.events


def record_of(record, table, log):
    """The record by which a completed log is judged: tasks that were discarded have computed nothing."""
    return replace(record, digest=digest_without(record, table.cost, log.discarded)) if log.discarded else record


def digest_without(record, costs, discarded):
    """The digest of a record in whose run these segments computed nothing."""
    values, discarded = [], set(discarded)
    for segment, preds in enumerate(record.preds):
        x = segment + sum(values[before] for before in preds) & MASK
        for _ in range(min(costs[segment], MOST_TURNS)):
            x = 5 * x + 1 & MASK
        values.append(0 if segment in discarded else x)
    return str(sum(values) & MASK)
