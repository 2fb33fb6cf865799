"""Changes of a text: of a place's costs, its waits, its depend items, whether its tasks are deferred; of which tasks
there are: more of them by a split, or fewer by joining neighbours or by a cutoff; and renaming: where tasks write what
others have read, each of them writes to a new location, as a ring of buffers has it. Each takes statements and gives
others.

A change counts in `count` what it has changed. `creating` is what the creation of a task costs: a new task brings so
much, and one less takes away as much, or all of the code before it where that cost less.
"""
from array import array
from collections import Counter
from dataclasses import dataclass, field
from itertools import count
from typing import List

from spanprof.program_text import BLOCKS, MOST, Statement, as_statements, is_share, is_shared_out, of_stream, where

DROPPED = "a dropped wait"      # as an empty group in its place is named
KEPT = 20       # characters of a name; with a number it has 31 at most


class Change:
    """`what` says it with its count and place. `relaxes` those that leave all segments and their costs, and have them
    wait for no more."""
    what, relaxes = "", False

    def __init__(self, place):
        self.place, self.count = place, 0

    def words(self):
        return self.what % (self.count, "" if self.count == 1 else "s", self.place)

    def __call__(self, stream):
        return self.made_of(as_statements(stream))


class Factor(Change):
    """Each piece of code at a place costs so many times as much, to the nearest whole number."""
    what = "%d piece%s of code changed: %s"

    def __init__(self, place, factor):
        super().__init__(place)
        self.factor = factor

    def words(self):
        return "%s times %g" % (super().words(), self.factor)

    def made_of(self, found):
        row, where = found.row[:], found.work_at(self.place)
        for i in where:
            row[i] = min(round(row[i] * self.factor), MOST)
        self.count += len(where)
        return found.changed(row)


class DropWait(Change):
    """An empty group, which waits for nothing, stands in place of a `taskwait`, or of the end of a `taskgroup`, so that
    the segments stay."""
    what, relaxes = "%d wait%s dropped: %s", True

    def empty(self, found, one):
        comment = one.comment + ", dropped" if one.comment else "dropped"
        ends = Statement("end", DROPPED, of="taskgroup")
        return found.number(Statement("taskgroup", DROPPED, comment=comment)), found.number(ends)

    def instead(self, found):
        """Of each statement where something else stands now, and what: nothing for the beginning of a group."""
        dropped = found.of_kind(lambda one: one.name == self.place and one.kind in ("taskwait", "taskgroup"))
        empty = {number: self.empty(found, found.known[-number]) for number in dropped}
        begins, ends = (found.of_kind(lambda one, kinds=kinds: one.kind in kinds) for kinds in (BLOCKS, ("end",)))
        of_open = []
        for i, number in enumerate(found.row):
            if number >= 0:
                continue
            if number in begins:
                of_open.append(empty.get(number))
            made = of_open.pop() if number in ends else empty.get(number)
            if made:
                yield i, () if number in begins else made

    def made_of(self, found):
        row, at, before = array("q"), array("I"), 0
        for i, made in self.instead(found):
            row.extend(found.row[before:i])
            at.extend(found.at[before:i])
            row.extend(made)
            at.extend([found.at[i]] * len(made))
            before, self.count = i + 1, self.count + bool(made)
        row.extend(found.row[before:])
        at.extend(found.at[before:])
        return found.changed(row, at)


class OfTasks(Change):
    """Tasks are written otherwise: `instead` is a task, and how much of it is changed; None where it stays."""
    relaxes = True

    def made_of(self, found):
        others, times = {}, {}
        for number in found.of_kind(lambda one: one.kind == "task"):
            made = self.instead(found.known[-number])
            if made:
                others[number], times[number] = found.number(made[0]), made[1]
        if not others:
            return found
        self.count += sum(times[number] * count for number, count in Counter(
            filter(others.__contains__, found.row)).items())
        return found.changed(array("q", [others.get(number, number) for number in found.row]))


class DropDepend(OfTasks):
    """The tasks of a place have no depend items."""
    what = "%d depend item%s dropped: %s"

    def instead(self, one):
        return (one._replace(items=()), len(one.items)) if one.items and one.name == self.place else None


class DropName(OfTasks):
    """No task has a depend item of a name."""
    what = "%d depend item%s dropped: of the name %s"

    def instead(self, one):
        kept = tuple(item for item in one.items if item[1] != self.place)
        return (one._replace(items=kept), len(one.items) - len(kept)) if len(kept) < len(one.items) else None


def read_only(one, names):
    """A task with `in` for `inout` of these names, and for how many items; None where it has none."""
    changed = tuple(("in", name) if name in names and kind == "inout" else (kind, name) for kind, name in one.items)
    times = sum(now != was for now, was in zip(changed, one.items))
    return (one._replace(items=tuple(dict.fromkeys(changed))), times) if times else None


class InForInout(OfTasks):
    """Tasks have `in` for `inout` of a name."""
    what = "%d depend item%s changed to in: of the name %s"

    def instead(self, one):
        return read_only(one, (self.place,))


def handed_on(found, place):
    """The names that a task of a place holds to write right behind another one of it that has them at another position
    of its list, as tasks do that hold what is their neighbours'; or behind the one before it that has them at the same
    position, and writes something else too, as tasks do that read the same."""
    last, before, out = {}, {}, set()
    having = found.of_kind(lambda one: one.kind == "task" and one.items)
    for number in filter(having.__contains__, found.row):
        one = found.known[-number]
        is_there = one.name == place
        mine = {name: at for at, (kind, name) in enumerate(one.items) if kind == "inout" and is_there}
        is_other = mine.keys() != before.keys()
        out.update(name for name, at in mine.items() if last.get(name) is not None and
                   (last[name] != at or is_other and before.get(name) == at))
        last.update((name, mine.get(name)) for _, name in one.items)
        before = mine if is_there else before
    return out


class ReadOnly(OfTasks):
    """The tasks of a place have `in` for `inout` of what the ones before them have too."""
    what = "%d depend item%s changed to in: those that tasks share at %s"

    def made_of(self, found):
        self.names = handed_on(found, self.place)
        return super().made_of(found)

    def instead(self, one):
        return read_only(one, self.names) if one.name == self.place else None


class Defer(OfTasks):
    """The undeferred tasks of a place are deferred."""
    what = "%d undeferred task%s deferred: %s"

    def instead(self, one):
        return (one._replace(is_undeferred=False), 1) if one.is_undeferred and one.name == self.place else None


class Creating(Change):
    def __init__(self, place, creating):
        super().__init__(place)
        self.creating = creating


class Restructured(Creating):
    """Statement by statement, in `statements`."""

    def made_of(self, found):
        return of_stream(self.statements(found))


class OfCode(Creating):
    """Each piece of code at the place that costs enough becomes something else: `instead` has its tasks' costs."""
    least = 0

    def made_of(self, found):
        place, name = found.place(self.place), "a part of " + self.place
        comment = where(self.place)
        task = found.number(Statement("task", name, comment=comment and comment + ", a part"))
        part, end = found.place(name), found.number(Statement("end", of="task"))
        around = [found.number(one) for one in self.around]
        row, at, before = array("q"), array("I"), 0
        for i in found.work_at(self.place, self.least):
            row.extend(found.row[before:i])
            at.extend(found.at[before:i])
            made = around[:1]
            for cost in self.costs(found.row[i]):
                made += self.creating, task, cost, end
            made += around[1:]
            row.extend(made)
            first, last = [place] * len(around[:1]), [part] * len(around[1:])
            at.extend(first + [place, place, part, part] * (len(made) // 4) + last)
            before, self.count = i + 1, self.count + 1
        row.extend(found.row[before:])
        at.extend(found.at[before:])
        return found.changed(row, at)


class Split(OfCode):
    """A piece of code that costs enough is so many tasks in a group, whose end waits for them."""
    what = "%d piece%s of code split: %s"
    around = Statement("taskgroup", "the group of the parts"), Statement("end", of="taskgroup")

    def __init__(self, place, parts, creating, least):
        super().__init__(place, creating)
        self.parts, self.least = parts, max(least, parts)

    def words(self):
        return "%s in %d tasks each, where it costs %d or more" % (super().words(), self.parts, self.least)

    def parts_of(self, _):
        return self.parts

    def costs(self, cost):
        parts = self.parts_of(cost)
        each, more = divmod(cost, parts)
        return [each + 1] * more + [each] * (parts - more)


class Grain(Split):
    """The same, in as many tasks as cost no more than a grain each."""

    def __init__(self, place, grain, creating, least):
        super().__init__(place, 2, creating, max(least, grain + 1))
        self.grain = grain

    def words(self):
        return "%s in tasks that cost %d at most" % (Creating.words(self), self.grain)

    def parts_of(self, cost):
        return -(-cost // self.grain)


class OwnTask(OfCode):
    """A piece of code is a task of its own: the next `taskwait`, or the end of a group around it, waits for it."""
    what = "%d piece%s of code made a task: %s"
    around = ()

    def __init__(self, place, creating, least):
        super().__init__(place, creating)
        self.least = max(least, 1)

    def costs(self, cost):
        return [cost]


def block(first, stream):
    """All of a block, of which the stream has what follows its first statement."""
    yield first
    depth = 1
    while depth:
        one = next(stream)
        depth += (one.kind in BLOCKS) - (one.kind == "end")
        yield one


class Cutoff(Restructured):
    """A task at this depth does all that is below it in its own code, but for what the program shares out among its
    threads; tasks of the root have depth 1."""
    what = "%d task%s left out: those below %s"

    def __init__(self, depth, creating):
        super().__init__("depth %d" % depth, creating)
        self.depth = depth

    def inside(self, first, stream):
        """What the code of a task at the depth costs, with all below it, up to its end."""
        depth, cost, last = 1, 0, 0     # `last`: the code before, of which a creation takes away
        yield first
        for one in stream:
            if one.kind == "work":
                last += one.cost
                continue
            if one.kind == "taskgroup" and is_shared_out(one.comment):
                yield Statement("work", first.name, cost + last)
                yield from block(one, stream)
                cost = last = 0
                continue
            if one.kind == "task":
                self.count += 1
                last = max(0, last - self.creating)
            cost, last = cost + last, 0
            depth += (one.kind == "task") - (one.of == "task")
            if depth == 0:
                break
        yield Statement("work", first.name, cost)
        yield Statement("end", of="task")

    def statements(self, stream):
        is_level, stream = [], iter(stream)     # of each open task: turns and sections are no level of tasks
        for one in stream:
            if one.kind == "task" and not is_share(one.comment) and sum(is_level) + 1 >= self.depth:
                yield from self.inside(one, stream)
                continue
            if one.kind == "task":
                is_level.append(not is_share(one.comment))
            elif one.of == "task":
                is_level.pop()
            yield one


@dataclass
class Joined:
    """A task that others may still join, what it has inside, and the code of its parent since."""
    first: Statement
    items: dict = field(default_factory=dict)
    body: List[Statement] = field(default_factory=list)
    after: List[Statement] = field(default_factory=list)
    since: int = 0      # what the parent's code has cost since the last of them ended
    count: int = 0

    def statements(self):
        yield self.first._replace(items=tuple(self.items))
        yield from self.body
        yield Statement("end", of="task")
        yield from self.after


class Join(Restructured):
    """So many tasks of a place that follow one another, with nothing but code between them, are one. It has the depend
    items of them all, and does what they do in their order."""
    what = "%d task%s left out: %s"

    def __init__(self, place, together, creating):
        super().__init__(place, creating)
        self.together = together

    def words(self):
        return "%s, joined by %d" % (super().words(), self.together)

    def takes(self, joined, task):
        return joined and joined.count < self.together and joined.first.is_undeferred == task.is_undeferred

    def add(self, joined, task):
        """Has the task join those before it, or begin anew where there are none; its creation is left out."""
        if joined.count:
            self.count += 1
            name = joined.after[-1].name if joined.after else task.name
            cost = sum(one.cost for one in joined.after)
            less = min(self.creating, joined.since)
            joined.after = [Statement("work", name, cost - less)] if cost > less else []
        joined.items.update(dict.fromkeys(task.items))
        joined.count, joined.since = joined.count + 1, 0

    def statements(self, stream):
        levels = [Level()]      # of each open task
        for one in (one for one in stream if one.name != DROPPED):
            level = levels[-1]
            if one.kind == "work" and level.joined:
                level.joined.after.append(one)
                level.joined.since += one.cost
            elif one.kind == "task" and one.name == self.place:
                if not self.takes(level.joined, one):
                    yield from out_of(levels, level.flush())
                    level.joined = Joined(one)
                self.add(level.joined, one)
                levels.append(Level(level.joined.body))
            elif one.of == "task" and level.is_joined:
                yield from out_of(levels, level.flush())
                levels.pop()
            else:
                yield from out_of(levels, level.flush() + [one])
                if one.kind == "task":
                    levels.append(Level())
                elif one.of == "task":
                    levels.pop()
        yield from out_of(levels, levels[-1].flush())


class Level:
    """An open task: where a joined task is kept that is not over, and where its own statements go if it is in one."""

    def __init__(self, body=None):
        self.body, self.joined = body, None

    @property
    def is_joined(self):
        return self.body is not None

    def flush(self):
        out, self.joined = list(self.joined.statements()) if self.joined else [], None
        return out


def out_of(levels, statements):
    """Into the innermost joined task that is open, or else out."""
    body = next((level.body for level in reversed(levels) if level.is_joined), None)
    if body is None:
        return statements
    body.extend(statements)
    return []


def written(task, name=""):
    """The names, or this one alone, that a task writes and does not read: those of `out`, for which a recorded text has
    `inout`."""
    kind = "out" if any(kind == "out" for kind, _ in task.items) else "inout"
    others = {name for other, name in task.items if other != kind}
    found = {name for other, name in task.items if other == kind} - others
    return found & {name} if name else found


class Rename(Change):
    """What a task of a place writes has a new name, which the siblings behind it have too, up to the next such task."""
    what, relaxes = "%d depend item%s renamed: %s", True

    def __init__(self, place, name=""):
        super().__init__(place)
        self.name = name

    def words(self):
        return super().words() + (", the name " + self.name) * bool(self.name)

    def made_of(self, found):
        row, newest, numbers = found.row[:], [{}], count(1)
        known = {name for number in set(found.row) if number < 0 for _, name in found.known[-number].items}

        def unused(name):
            return next(new for new in ("%s_%d" % (name[:KEPT], number) for number in numbers) if new not in known)
        for i, number in enumerate(found.row):
            one = found.known[-number] if number < 0 else found.known[0]
            if one.kind == "task":
                row[i] = found.number(self.renamed(one, newest[-1], unused)) if one.items else number
                newest.append({})
            elif one.of == "task":
                newest.pop()
        return found.changed(row)

    def renamed(self, task, newest, unused):
        """`newest` has what names stand for now that siblings before it have."""
        again = [name for name in written(task, self.name) if name in newest] if task.name == self.place else []
        newest.update((name, unused(name)) for name in sorted(again))
        self.count += len(again)
        return task._replace(items=tuple((kind, newest.setdefault(name, name)) for kind, name in task.items))
