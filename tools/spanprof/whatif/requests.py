"""The changes that the command line asks for, with places that the text has: one table of them. What there is in a text
to change: its places, waits, depend items, and what creating a task costs, as it is given, or as the text itself tells
it. And the changed text.

Tasks that the program does not make, and the groups of its loops, are none that one can change.
"""
import re
from collections import Counter
from dataclasses import dataclass, field
from difflib import get_close_matches
from itertools import compress
from typing import Callable, NamedTuple

from spanprof import client
from spanprof.command import Fault, writing
from spanprof.head import head_text, read_head
from spanprof.program_text import (Marks, TextFile, as_statements, is_programs, is_share, is_shared_out, marks_of_file,
                                   of_marks)
from spanprof.remarks import in_json
from spanprof.whatif.changes import (Cutoff, Defer, DropDepend, DropName, DropWait, Factor, Grain, InForInout, Join,
                                     OwnTask, ReadOnly, Rename, Split)

SHORT = 10      # so many times as much as the code between a task and the wait for it does the task cost
ENCODING = {"encoding": "utf-8", "errors": "replace", "newline": "\n"}
OF_THE_RUN = ("covers", "not covered", "elapsed", "outside regions", "in other regions", "in parts without tasks",
              "in tasks", "clocks differ", "taken off", "preempted")
LEAST_SECONDS = 10      # in which changes of a text are tried, if its program took no longer
MOST_FACTOR = 1e6
MOST_TOGETHER = 1000000
MOST_COST = 10 ** 12
CODE, DEPENDENT = "piece of code", "task with depend items"
IS_RIGHT = "whether the program stays right without it is for you to judge: no text says what its tasks read and write"
IS_WRITTEN = "whether those tasks write all of it and read none is for you to judge: a recorded text has inout for out"
IS_DIVISIBLE = "whether that code can be divided, or run in parallel to what follows it, is for you to judge"


class Costs(NamedTuple):
    """What creating a task costs, and why it is known."""
    creating: int
    why: str

    def for_parts(self, parts):
        """From what on code is divided: a part costs no less than its creation."""
        return parts * self.creating


def costs_for(head, seen, creating=None):
    """A text whose costs are declared has none of the runtime's part."""
    if creating is not None:
        return Costs(creating, "as given")
    found = seen.creating() if head.is_measured else None
    if found is None:
        return Costs(0, "the text does not tell it")
    return Costs(found, "a quarter of the %d pieces of code between two creations cost at most that (measured)" %
                 sum(seen.between.values()))


@dataclass
class Survey:
    """Counts by name."""
    code: set = field(default_factory=set)      # the names of places with some
    tasks: Counter = field(default_factory=Counter)
    waits: Counter = field(default_factory=Counter)         # taskwaits and taskgroups
    ordered: Counter = field(default_factory=Counter)       # of these, those of tasks that depend items order too
    alone: Counter = field(default_factory=Counter)         # taskwaits right behind the only task that they wait for
    dependent: Counter = field(default_factory=Counter)     # tasks with depend items, by place
    items: Counter = field(default_factory=Counter)         # depend items, by their name
    undeferred: Counter = field(default_factory=Counter)    # undeferred tasks, by place
    depth: int = 0
    between: Counter = field(default_factory=Counter)       # costs of code between two creations of one task

    def creating(self):
        """The least cost that a quarter of the code between two creations does not exceed; None without any."""
        rank, seen = (sum(self.between.values()) + 3) // 4, 0
        for cost in sorted(self.between):
            seen += self.between[cost]
            if seen >= rank:
                return cost
        return None


def count_kinds(found, out):
    """What each statement is, as often as it stands in the row."""
    for number, times in Counter(found.row).items():
        one = found.known[-number] if number < 0 else None
        if one and one.kind == "task" and is_programs(one.comment):
            out.tasks[one.name] += times
            out.dependent[one.name] += times * bool(one.items)
            out.undeferred[one.name] += times * one.is_undeferred
            for _, name in one.items:
                out.items[name] += times
        elif one and (one.kind == "taskwait" or one.kind == "taskgroup" and not is_shared_out(one.comment)):
            out.waits[one.name] += times


class Kind:
    """Of a statement what the walk asks of it."""

    def __init__(self, one):
        self.name, self.is_task, self.is_group = one.name, one.kind == "task", one.kind == "taskgroup"
        self.is_wait, self.is_end_of_task = one.kind == "taskwait", one.of == "task"
        self.is_programs = self.is_task and is_programs(one.comment)
        self.is_level = self.is_task and not is_share(one.comment)      # turns and sections are no level of tasks
        self.has_items = self.is_programs and bool(one.items)


def walk(found, out):
    """Depth, what stands between creations, and which waits are for tasks with depend items or for one task alone."""
    kinds, between = [Kind(one) for one in found.known], Counter()
    deepest, since = 0, None    # what the code cost since a task's end; None after another thing
    tasks, groups, depth, has_items = [], [], 0, False  # of each open task what was before it; whether one has items
    made = cost = total = 0     # tasks since the last wait, the cost of the last one and all below it, and all so far
    for number in found.row:
        if number >= 0:
            total += number
            if since is not None:
                since += number
            continue
        kind = kinds[-number]
        if kind.is_task:
            if since is not None and kind.is_programs:
                between[since] += 1
            tasks.append((has_items or kind.has_items, depth, made + kind.is_programs, total))
            has_items, depth, made = False, depth + kind.is_level, 0
            if depth > deepest:
                deepest = depth
        elif kind.is_end_of_task:
            has_items, depth, made, cost = tasks.pop()
            since, cost = 0, total - cost
            continue
        elif kind.is_group:
            groups.append(kind.name)
        else:
            out.ordered[kind.name if kind.is_wait else groups.pop()] += has_items
            if kind.is_wait:
                out.alone[kind.name] += made == 1 and since is not None and SHORT * since <= cost
                made = 0
        since = None
    out.depth, out.between = deepest, between


def survey(stream):
    found = as_statements(stream)
    out = Survey({found.places[at] for at in set(compress(found.at, map((-1).__lt__, found.row)))})
    count_kinds(found, out)
    walk(found, out)
    return out


class Text:
    """Of version 1, or the canonical text of one of version 2."""

    def __init__(self, path, version):
        self.path, self.version = path, version
        self.head_text = head_text(path)
        self.head = read_head(self.head_text)
        self.canonical = client.ask(["show"], TextFile(path)) if version == 2 else None

    def statements(self):
        return of_marks(Marks(self.canonical.splitlines(True)) if self.canonical is not None else
                        marks_of_file(self.path))


def version_of(path):
    return 2 if TextFile(path).has_loops() else 1


def changed_head(text, made):
    """The head without what it tells of the recorded run alone, and what was changed."""
    for words in text.head_text.splitlines():
        words = words[1:].strip()
        if words.partition(": ")[0] not in OF_THE_RUN:
            yield words
    for one in made:
        words = "a changed text, " + one.words().replace(": ", ", ")
        yield "remark: " + in_json("changed text", words, work="either", span="either")


def write(path, text, found, made):
    """The changed text."""
    with writing(path, **ENCODING) as file:
        file.writelines("# %s\n" % words for words in changed_head(text, made))
        file.write(as_statements(found).text(text.version))


def seconds_for(elapsed):
    return max(LEAST_SECONDS, elapsed / 1e9)


def best_first(requests, kind_of):
    """Of each kind the first, which is the one with the most cost, then of each the second, and so on."""
    seen = Counter()

    def rank(request):
        seen[kind_of(request)] += 1
        return seen[kind_of(request)]
    return [request for _, _, request in sorted((rank(one), i, one) for i, one in enumerate(requests))]


class Request(NamedTuple):
    """An option and its word, such as `split` and `task at sort.c:30=4`."""
    option: str
    word: str


def find(word, names, what):
    """The name that is the word, or the only one that begins with it, or else that has it in it."""
    found = [name for name in names if name == word] or [name for name in names if word and name.startswith(word)] or \
        [name for name in names if word and word in name]
    if len(found) == 1:
        return found[0]
    near = found or get_close_matches(word, names, 3, 0.4)
    hint = "; %s: %s" % ("say which" if found else "there are", ", ".join(sorted(near)[:3])) if near else \
        "; spanprof-whatif --places lists what there is"
    raise Fault("%s: %s %s of this name%s" % (word, "more than one" if found else "no", what, hint))


def whole(word, least, most):
    if not re.fullmatch("[0-9]{1,15}", word) or not least <= int(word) <= most:
        raise Fault("%r is not a whole number from %d to %d" % (word, least, most))
    return int(word)


def factor_of(word):
    try:
        factor = float(word)
    except ValueError as wrong:
        raise Fault("%s: the factor is not a number" % word) from wrong
    if not 0 <= factor <= MOST_FACTOR:
        raise Fault("%s: a factor is from 0 to 1,000,000" % word)
    return factor


def place_and_number(word):
    """Of `PLACE=NUMBER`; a place may have a `=` too."""
    place, sign, number = word.rpartition("=")
    if not sign:
        raise Fault("%s: expected PLACE=NUMBER" % word)
    return place, number


def factor(word, seen, _):
    place, number = place_and_number(word)
    return Factor(find(place, seen.code, CODE), factor_of(number))


def drop_wait(word, seen, _):
    wait = word.removeprefix("after ")     # the code that follows it names it, too
    return DropWait(find(wait, seen.waits, "taskwait or taskgroup"))


def split(word, seen, costs):
    place, number = place_and_number(word)
    parts = whole(number, 2, MOST_TOGETHER)
    return Split(find(place, seen.code, CODE), parts, costs.creating, costs.for_parts(parts))


def grain(word, seen, costs):
    place, number = place_and_number(word)
    most = whole(number, 1, MOST_COST)
    return Grain(find(place, seen.code, CODE), most, costs.creating, costs.for_parts(2))


def join(word, seen, costs):
    place, number = place_and_number(word)
    return Join(find(place, seen.tasks, "task"), whole(number, 2, MOST_TOGETHER), costs.creating)


def rename(word, seen, _):
    place, _, name = word.rpartition("=")
    if name not in seen.items:
        place, name = word, ""
    return Rename(find(place, +seen.dependent, DEPENDENT), name)


class Option(NamedTuple):
    """`make` answers the change, of the option's word, what a survey saw of the text, and costs."""
    name: str
    metavar: str
    help: str
    make: Callable
    judgement: str = ""     # what is left to the reader


OPTIONS = (
    Option("factor", "PLACE=F", "multiply the cost of the code at PLACE by F", factor),
    Option("drop-wait", "PLACE", "remove the taskwait there, or the waits of the taskgroup", drop_wait, IS_RIGHT),
    Option("drop-depend", "PLACE", "remove the depend items of the tasks there",
           lambda word, seen, _: DropDepend(find(word, +seen.dependent, DEPENDENT)), IS_RIGHT),
    Option("drop-name", "NAME", "remove this depend item from all tasks",
           lambda word, seen, _: DropName(find(word, seen.items, "depend item")), IS_RIGHT),
    Option("in-for-inout", "NAME", "make this depend item in for all tasks: they only read it",
           lambda word, seen, _: InForInout(find(word, seen.items, "depend item")), IS_RIGHT),
    Option("read-only", "PLACE", "make in what the tasks there hold of those before them: they only read it",
           lambda word, seen, _: ReadOnly(find(word, +seen.dependent, DEPENDENT)), IS_RIGHT),
    Option("rename", "PLACE[=NAME]", "have each task there write to new locations, or to one in place of NAME alone, "
           "which those behind it read", rename, IS_WRITTEN),
    Option("defer", "PLACE", "defer the undeferred tasks there",
           lambda word, seen, _: Defer(find(word, +seen.undeferred, "undeferred task"))),
    Option("split", "PLACE=K", "divide the code at PLACE into K tasks in a group", split, IS_DIVISIBLE),
    Option("grain", "PLACE=COST", "the same, into tasks of at most COST each", grain, IS_DIVISIBLE),
    Option("join", "PLACE=K", "merge each K consecutive tasks of PLACE into one", join),
    Option("cutoff", "DEPTH", "create no tasks below this depth",
           lambda word, _, costs: Cutoff(whole(word, 1, MOST_TOGETHER), costs.creating)),
    Option("task", "PLACE", "make the code at PLACE a task, which the next wait waits for",
           lambda word, seen, costs: OwnTask(find(word, seen.code, CODE), costs.creating, costs.for_parts(1)),
           IS_DIVISIBLE),
)
MAKE = {option.name: option.make for option in OPTIONS}


def changes(requests, seen, costs):
    out = []
    for request in requests:
        try:
            out.append(MAKE[request.option](request.word, seen, costs))
        except Fault as fault:
            raise Fault("--%s %s" % (request.option, fault)) from fault
    return out


def applied(stream, made):
    for one in made:
        stream = one(stream)
    return stream
