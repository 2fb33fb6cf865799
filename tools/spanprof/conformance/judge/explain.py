"""Says in words what a failed run broke, and where one stood that did not come to its end: what ran, what could have
gone on, and at which constructs.
"""
import re
from dataclasses import dataclass

from spanprof.conformance.generate.text_reader import read_program
from spanprof.conformance.judge import chunks, exclusion, tied
from spanprof.conformance.judge.rules import RULES, rule_of
from spanprof.conformance.judge.segments import Table, conflict

MOST_SEARCHED = 1000  # segments of a program whose ready segments are looked for
MOST_NAMED = 3        # constructs that tell hangs apart
BELOW = " below its waiter"
NO_WAITER = " that no thread waits for"
IN_GROUP = " in a group whose end waits"
KINDS = {
    "AlreadyStarted": ("twice", "which has begun before"),
    "WorkerBusy": ("two at once", "while it runs another segment"),
    "NotRunning": ("not running", "which it does not run"),
    "UnknownSegment": ("unknown", "which the program does not have"),
    "UnknownWorker": ("unknown", "and spanprof counts 64 threads"),
}
MOST_RUNNING, MOST_READY = 3, 5  # segments that are named
CUT_SHORT = "rest of an untied task next to a cancelled group"
OF_EXCLUSIVE = ", of a task with mutexinoutset or one below it"


class Standing:
    """What a log says of a program, given its table of segments, the number of threads, or 0 where it is not known, and
    whether the events have neither an order nor a thread."""

    def __init__(self, table, events, threads=0, unlogged=False):
        self.table, self.threads, self.unlogged = table, threads, unlogged
        pairs = [line.split() for line in events if line != "overflow"]
        self.last = {table.task_of[int(s)].number: (place, worker) for place, (_, worker, s) in enumerate(pairs)
                     if int(s) < len(table.task_of)}  # of each task, its last event's place and thread
        self.started = [int(segment) for what, _, segment in pairs if what == "start"]
        self.finished = {int(segment) for what, _, segment in pairs if what == "finish"}
        self.running = [s for s in self.started if s not in self.finished]
        self.ready = self.ready_segments()
        self.stacks = stacks_of(table, pairs)

    def ready_segments(self):
        """The segments that might have been started; none are looked for in a large program."""
        count, started = len(self.table.cost), set(self.started)
        if count > MOST_SEARCHED:
            return []
        return [s for s in range(count) if s not in started
                and all(need.before in self.finished for need in self.table.needs(s))]

    def place_of(self, segment):
        """The construct at which a segment that might have been started is held up."""
        task, cut = self.table.task_of[segment], self.table.cut[segment]
        if segment != task.segments[0]:
            return cut.construct + BELOW * self.is_below_waiter(task) if cut.construct else "after a task"
        if task.parent and task.parent.detached:
            return "begin of the child of detach" + self.left_alone(task)
        if task.exclusive and task.parent.segments[-1] in self.finished:
            return "begin of a task with mutexinoutset whose parent has ended"
        return "begin of a task with depend" if task.items else "begin of a task"

    def left_alone(self, task):
        """Why no thread of the team begins the child of a task with `detach`, where that is known: each waits inside of
        a task, and none at a barrier, for tasks that cannot begin, or for those of a group around the child."""
        if self.is_each_thread(self.waits_in_vain):
            return NO_WAITER
        in_group = self.is_each_thread(lambda waiter: self.waits_in_vain(waiter) or self.waits_in_group(waiter, task))
        return IN_GROUP * in_group

    def is_each_thread(self, waits):
        """Whether each thread of the team is in a task that waits so. Where the threads are not known, so many tasks
        have to wait so."""
        innermost = [stack[-1] for stack in self.stacks.values() if stack]
        if self.unlogged:
            innermost = [task for stack in self.stacks.values() for task in stack]
        return 0 < self.threads <= sum(map(waits, innermost))

    def waited_for(self, task):
        """What a task that has begun waits for, as the cut before its next segment says, or None."""
        left = next((s for s in task.segments if s not in self.finished), None)
        if left is None or left in self.started or left in self.ready:
            return None
        return self.table.cut[left]

    def waits_in_group(self, waiter, task):
        """Whether a task that has begun is at the end of a group that another one belongs to."""
        cut = self.waited_for(waiter)
        return cut is not None and cut.construct not in ("", "parallel", "taskwait") and \
            any(other is task for other in cut.tasks)

    def waits_in_vain(self, task):
        """Whether a task that has begun is at a wait for tasks that cannot begin. The end of a region is no wait
        inside of a task."""
        cut = self.waited_for(task)
        return cut is not None and cut.construct not in ("", "parallel") and \
            not any(other.segments[0] in self.ready for other in cut.tasks)

    def is_below_waiter(self, task):
        """Whether the thread that has left a task has gone on with an untied one that waits for it: then the first lies
        below the second on the stack, and neither goes on."""
        place, thread = self.last[task.number]
        waiter = task.parent
        while waiter:
            later, there = self.last.get(waiter.number, (-1, ""))
            if not waiter.tied and later > place and there == thread and waiter.segments[-1] not in self.finished:
                return True
            waiter = waiter.parent
        return False

    def places(self):
        """In a few words, the constructs at which a run hangs: the same for hangs that are taken for the same."""
        found = {self.place_of(segment) for segment in self.ready}
        found = sorted(found, key=lambda place: (not place.endswith(BELOW), place))
        if found:
            return ", ".join(found[:MOST_NAMED])
        if self.running:
            return "inside a segment"
        return "end of the region" if len(self.finished) == len(self.table.cost) else "somewhere"


def stacks_of(table, pairs):
    """By thread, the tasks that have begun there and whose code has not ended, the latest last."""
    stacks = {}
    for what, thread, segment in pairs:
        task = table.task_of[int(segment)] if int(segment) < len(table.task_of) else None
        if not task:
            continue
        if what == "start" and int(segment) == task.segments[0]:
            stacks.setdefault(thread, []).append(task)
        elif what == "finish" and int(segment) == task.segments[0 if task.detached else -1]:
            for stack in stacks.values():
                stack[:] = [other for other in stack if other is not task]
    return stacks


def without_places(breakdown):
    """How a program broke down, as it is the same on another machine and in another version: the complaint without
    paths and numbers."""
    how, colon, complaint = breakdown.partition(": ")
    words = re.sub(r"(?<!\w)/?(?:[\w.+-]+/)+(?=[\w.+-])", "", complaint)
    return how + colon + re.sub(r"\b0x[0-9a-fA-F]+\b|\b[0-9]+\b", "N", words)


@dataclass
class Explanation:
    rule: str   # the short name of what was broken, for tables
    words: str  # the whole story in a few lines


def explain(text, verdict, log, threads=0):
    """What a verdict other than accepted means, of a run on so many threads, or on some number that is not known: what
    was seen, and what is expected."""
    table = Table(read_program(text))
    if verdict.kind == "refused" and verdict.detail.startswith("event "):
        found = refused(table, verdict.detail, log)
    elif verdict.kind in ("hung", "incomplete", "crashed"):
        found = stopped(table, verdict, log, threads)
    else:
        found = Explanation(short_rule(table, verdict, log), verdict.detail)
    return Explanation(found.rule, f"{found.words}. Expected: {RULES[rule_of(verdict.kind, found.rule)]}.")


def short_rule(table, verdict, log):
    """What tells failures apart of which the verdict itself says all."""
    if verdict.kind == "values" and log.wrong:
        return log.wrong.partition(": ")[0]
    if verdict.kind == "refused":
        return "twice" if log.unlogged else verdict.detail
    own = {"chunks": chunks.rule_of, "overlapping": exclusion.rule_of,
           "unconstrained": lambda words: tied.rule_of(table, words)}
    return own[verdict.kind](verdict.detail) if verdict.kind in own else verdict.kind


def refused(table, detail, log):
    place, _, reason = detail.removeprefix("event ").partition(": ")
    kind, *others = reason.split()
    event = log.events[int(place)]
    what, worker, segment = event.split()
    begin = f"event {place}, `{event}`: thread {worker} " + ("starts " if what == "start" else "finishes ")
    begin += table.name_of(int(segment)) if int(segment) < len(table.cost) else f"segment {segment}"
    if kind != "NotReady":
        rule, seen = KINDS.get(kind, (kind, kind))
        rule += OF_EXCLUSIVE * (rule == "twice" and exclusion.is_below_exclusive(table.task_of[int(segment)]))
        rule = "iterations" if rule == "twice" and int(segment) in table.turn_of else rule
        return Explanation(rule, f"{begin}, {seen}")
    need = table.need(int(others[0]), int(segment))
    rule, why = (need.rule, reason_of(table, need, int(segment))) if need else ("order", "by several rules together")
    short = CUT_SHORT if is_cut_short(table, int(others[0]), started_in(log.events)) else rule
    short += of_exclusive(table, need, int(segment), started_in(log.events[:int(place)])) if short == rule else ""
    return Explanation(short, f"{begin} before {table.name_of(int(others[0]))} has finished: {why}")


def of_exclusive(table, need, segment, started):
    """What is added to a rule where a region ended before a task with mutexinoutset had begun, or before one below it;
    or where one begins that this run has not created. What has started by then is reported."""
    rule = need.rule if need else ""
    if rule == "taskgroup" and need.construct == "parallel":
        return OF_EXCLUSIVE * exclusion.is_below_exclusive(table.task_of[need.before], started)
    return OF_EXCLUSIVE * (rule == "creation" and exclusion.is_below_exclusive(table.task_of[segment]))


def started_in(events):
    """The segments that have begun in some events."""
    return {int(event.split()[2]) for event in events if event.startswith("start ")}


def is_cut_short(table, segment, started):
    """Whether a segment never runs since it is the rest of an untied task that has begun, or is made by that, where the
    task belongs to a group that is cancelled, or has one in its own code. What has started is reported."""
    task = table.task_of[segment]
    if segment in started or not task.parent:
        return False
    if task.segments[0] not in started:
        return is_cut_short(table, task.creator, started)
    return not task.tied and bool(task.cancellers or any(child.cancellers for child in task.children))


def reason_of(table, need, after):
    """Why a need of a segment is one, in words."""
    first, then = table.task_of[need.before], table.task_of[after]
    if need.rule == "order":
        return "the one comes next after the other in the code of one task"
    if need.rule == "creation":
        return "the one creates the task that the other begins"
    if need.rule == "taskwait":
        return f"the taskwait of task {then.number} waits for its child task {first.number}"
    if need.rule == "taskgroup":
        where = "was created inside it" if first.parent is then else "is below a task that was created inside it"
        return f"the end of the {need.construct} waits for task {first.number}, which {where}"
    if need.rule == "undeferred":
        return f"task {first.number} is undeferred ({need.construct}), so task {then.number} goes on only after it"
    kind, other, place = conflict(first.items, then.items)
    return f"`{other}: {place}` of task {then.number} conflicts with `{kind}: {place}` of its sibling " \
           f"task {first.number}"


def stopped(table, verdict, log, threads):
    """Where a run stood that did not come to its end. Hangs are told apart by where they stand, breakdowns by what the
    runtime said."""
    standing = Standing(table, log.events, threads, log.unlogged)
    detail = f" ({verdict.detail})" if verdict.detail and verdict.kind != "incomplete" else ""
    words = [f"{verdict.kind.capitalize()}{detail}, with {len(standing.finished)} of {len(table.cost)} segments "
             "finished"]
    words += [f"running: {table.name_of(s)}" for s in standing.running[:MOST_RUNNING]]
    words += [f"ready, but not started: {table.name_of(s)}" for s in standing.ready[:MOST_READY]]
    left = set(range(len(table.cost))) - standing.finished
    is_short = all(is_cut_short(table, segment, set(standing.started)) for segment in left)
    rules = {"hung": f"at {standing.places()}", "crashed": without_places(verdict.detail),
             "incomplete": CUT_SHORT if is_short else "incomplete"}
    return Explanation(rules.get(verdict.kind, verdict.kind), "; ".join(words))
