"""How places, waits and depend items are named to people: functions, lines, and items as the source spells them; in
which calls code slept, and at which lines; and a change as a diff of the directive that it changes.
"""
import re
from collections import Counter
from itertools import accumulate
from typing import NamedTuple

from spanprof.diagnosis.calls import (A_SAMPLE, LEAST, NO_NAME, OF_SYSTEM, OFFSET, called_code, caller_of, innermost,
                                      is_of_program, plain)
from spanprof.diagnosis.losses import is_repeated
from spanprof.diagnosis.places import ALLOCATION, OF_THREADS, OWN, SERIAL, lines_between
from spanprof.program_text import BEGINNING, where
from spanprof.source_lines import (COMMENT, DIRECTIVE, LONGEST, STRING, after_directive, code_lines, code_of,
                                   construct_of, directive_above, directive_line, is_needless, line_of, meets_at_end,
                                   own_item, statement_below, statement_end)

LONG_ITEM = 20
OF_A_STATEMENT = 3      # lines
FUNCTION = re.compile(r"^[A-Za-z_][\w\s:*&<>,~]*\b%s\s*\(")
CALL = re.compile(r"^(?:[\w.\[\]>-]+\s*[-+*/]?=\s*)?([A-Za-z_]\w*)\s*\(")
DEPEND = re.compile(r"depend\s*\(\s*(\w+)\s*:\s*((?:[^()]|\([^()]*\))*)\)")
LINE = re.compile(r"[^\s:/]+:\d+$")
LONGEST_CALLED = 50     # columns of a function and its caller
ATOMIC = re.compile(r"omp\s+atomic|\bstd::atomic\b|\bfetch_(add|sub|or|and|xor)\b|__atomic_|__sync_", re.I)
DIVIDED = re.compile(r"\b(for|do|sections|loop|taskloop|workshare)\b", re.IGNORECASE)
BY_NUMBER = re.compile(r"omp_get_(thread_num|num_threads)|#\s*pragma\s+omp\s+(single|ma(ster|sked)|critical|task|"
                       r"ordered)|\batomic|\bfetch_", re.IGNORECASE)
ORDERED = re.compile(r"\bordered\b")
OF_TURNS = re.compile(r"\s*#\s*pragma\s+omp\s+ordered\b")
MUCH_CODE = 0.2         # of all code, from which on a place is looked at
MUCH_SHARED = 0.1       # of the samples of code
HOT = 0.8               # of the samples of code, that the lines have which are reported of it
NO_CALLS = ("if", "for", "while", "switch", "return", "sizeof")
KINDS = ("in", "out", "inout", "inoutset", "mutexinoutset", "depobj")
WRITES = {"out": "inout"}       # as the recorder writes it
UNNAMED = "one item"
MOST_SLEEP = 0.8      # of a place's sleep, from which on one call is reported as all of it
LEAST_SLEEP = 0.1     # from which on a call is reported beside another
MOST_LINES = 2
MOST_EACH = 5   # threads for each processor: more take longer to start, and memory
OF_LIBRARY = re.compile("^(__)?libc_")      # before the name of a function, where the C library has it twice
FOR_PROGRAM = "for a program that it started"
FOR_PROGRAMS = ("system", "wait", "waitpid", "wait4", "waitid", "pclose")


def code_at(name):
    """The function of a place without a line, such as `taskwait at sort+0x12`; file and offset where it has no name.
    Empty for other places."""
    code = name.rpartition(" at ")[2]
    if not OFFSET.search(code):
        return ""
    return code.replace("[", "").replace("]", "") if code.startswith(NO_NAME) else plain(code)


def split_items(words):
    """At the commas that stand in no brackets."""
    out, depth = [""], 0
    for sign in words:
        depth += (sign in "[({") - (sign in "])}")
        if sign == "," and not depth:
            out.append("")
        else:
            out[-1] += sign
    return [word.strip() for word in out]


def items_in(directive):
    """The items of a directive as they are spelt, by the type that the recorder writes; and the type as it is spelt.
    None where a clause cannot be read, as one of a macro: another's item would have its name."""
    found, clauses = {}, DEPEND.findall(directive)
    if len(clauses) < len(re.findall(r"\bdepend\s*\(", directive)) or any(kind not in KINDS for kind, _ in clauses):
        return {}
    for kind, words in clauses:
        found.setdefault(WRITES.get(kind, kind), []).extend((kind, item) for item in split_items(words))
    return found


def block_end(lines, number):
    """The last line of code from one on before the block closes that it is in."""
    depth, last = 0, number
    for here in range(number, min(len(lines), number + LONGEST) + 1):
        code = STRING.sub("", lines[here - 1])
        depth += code.count("{") - code.count("}")
        if depth < 0:
            break
        if code.strip() and not code.lstrip().startswith("#"):
            last = here
    return last


class Suspect(NamedTuple):
    """An item that each thread has next to those of others, an atomic operation, or whatever a line writes; and the
    line."""
    item: str
    at: str
    is_atomic: bool = False

    def __str__(self):
        if self.is_atomic:
            return "the atomic at " + self.at
        return "%s next to others' (%s)" % (self.short, self.at) if self.item else "what %s writes" % self.at

    @property
    def short(self):
        """The item, where it is long without its index."""
        return self.item if len(self.item) <= LONG_ITEM else re.sub(r"\[.*\]", "[..]", self.item)

    @property
    def instead(self):
        """What to write in its place."""
        if self.is_atomic:
            return "a reduction in place of the atomic at " + self.at
        what = "%s (%s)" % (self.short, self.at) if self.item else str(self)
        return "keep %s in a local variable" % what


class Names:
    """`sources` has the lines of the program's files, where they are found."""

    def __init__(self, facts, sources):
        self.facts, self.sources = facts, sources

    def body(self, name, function):
        """The first and the last line of a function in a file; 0 where it is not found."""
        lines = self.lines_of(name)
        begin = self.function_begin(name, function, len(lines))
        opened = next((here for here in range(begin, len(lines) + 1) if "{" in lines[here - 1]), 0) if begin else 0
        return (begin, block_end(lines, opened + 1)) if opened else (0, 0)

    def lines_of(self, name):
        return self.sources.lines_of(name) if self.sources else []

    def function_begin(self, name, function, number):
        """The line at which a function begins that has a line in it; 0 where it is not found."""
        begins, lines = re.compile(FUNCTION.pattern % re.escape(function)), self.lines_of(name)
        return next((here for here in range(min(number, len(lines)), 0, -1) if begins.match(lines[here - 1])), 0)

    def begin(self, name, at):
        """The line of a construct, by the name of its place and where it was recorded."""
        line, lock = line_of(at), self.lock(name)
        if line and self.facts.is_of_gcc and lock and lock.kind == "ordered":
            return self.ordered(line)
        if not line or not self.facts.is_of_gcc or lock and lock.kind != "critical" or name.startswith(ALLOCATION):
            return line
        construct, is_inside = lock.kind if lock else construct_of(name), self.facts.is_on_gcc
        return line._replace(number=directive_line(self.lines_of(line.file), line.number, construct, is_inside))

    def ordered_loops(self):
        """The lines and the directives of loops with such turns."""
        found = [(self.begin(name, place.at), self.directive(name, place.at))
                 for name, place in self.facts.places.items()]
        return [loop for loop in found if ORDERED.search(loop[1])]

    def ordered(self, line):
        """gcc may give an ordered region the line of code before it, which may be another function's: that of the
        directive in the loop with such turns, the last one before the line if there is one."""
        loop = max((at for at, _ in self.ordered_loops()),
                   key=lambda one: (one.file == line.file and one.number <= line.number, one), default=None)
        lines = self.lines_of(loop.file) if loop else []
        inside = range(loop.number + 1, block_end(lines, loop.number) + 1) if loop else ()
        return next((loop._replace(number=here) for here in inside if OF_TURNS.match(lines[here - 1])), loop or line)

    def lock(self, name):
        found = (lock for lock in self.facts.locks if not lock.function)
        return next((lock for lock in found if name and name in (lock.place, lock.kind)), None)

    def spelt(self, name):
        """With the line of its directive, or the name of its function; of another tool's task its name."""
        if self.facts.is_imported:
            return where(name) or name
        line, function = self.begin(name, name), code_at(name)
        if line:
            return LINE.sub("%s:%d" % line, name)
        what, at, _ = name.rpartition(" at ")
        return what + at + function if function else name

    def is_needless(self, wait):
        """Whether the source has a reason to think so."""
        line = self.begin(wait, wait)
        return bool(line) and is_needless(self.lines_of(line.file), line.number)

    def directive(self, name, at):
        """The directive of a place, its lines joined, without a comment. Clang gives a loop the line below it."""
        line = self.begin(name, at)
        lines = self.lines_of(line.file) if line else []
        if not line or not 0 < line.number <= len(lines):
            return ""
        number = directive_above(lines, line.number)
        end = after_directive(lines, number)
        return " ".join(COMMENT.sub("", one).strip().rstrip("\\") for one in lines[number - 1:end - 1])

    def loops_inside(self, name):
        """The loops and sections of a region at whose ends its threads meet; of directives above one statement, as in
        `#if` and `#else`, the last one."""
        region = self.begin(name, name)
        lines = self.lines_of(region.file) if region else []
        begin = after_directive(lines, region.number) if lines else 0
        inside = range(begin, statement_end(lines, begin) + 1) if lines else ()
        of_statements = {statement_below(lines, here): here for here in inside if meets_at_end(lines, here)}
        return [region._replace(number=here) for here in of_statements.values()]

    def is_repeated(self, name):
        """The same of a region whose source is known, and neither asks for its threads' numbers nor has constructs by
        which one of them does more than the others."""
        region = self.begin(name, name) if is_repeated(self.facts, name) else None
        lines = self.lines_of(region.file) if region else []
        begin = after_directive(lines, region.number) if lines else 0
        code = [COMMENT.sub("", line) for line in lines[begin - 1:statement_end(lines, begin)]] if lines else []
        is_divided = DIVIDED.search(self.directive(name, name)) or any(map(BY_NUMBER.search, code))
        return bool(code) and not is_divided

    def stretch(self, place):
        """File, first and last line of a place's code, as far as they are known."""
        if self.hot(place):
            return self.hot(place)[:3]
        file, first, last = lines_between(place)
        if place.name == BEGINNING and file:
            function = self.function(place)
            return file, self.function_begin(file, function, last) if function else 0, last
        line = self.begin(place.name, place.at)
        if line and self.lines_of(file):
            begin, end = code_lines(place.name, line, self.lines_of(file))
            return file, begin, last if last >= begin else max(end, block_end(self.lines_of(file), begin))
        return file, first, last

    def hot(self, place):
        """Of serial code that is in no function but the outermost: file, first and last line of those that have most of
        its samples, and the function. None where they are not known."""
        at, ran = (found.get(place.name, {}) for found in (self.facts.calls.at, self.facts.calls.ran))
        if place.kind != SERIAL or self.ran(place) or sum(at.values()) < LEAST * A_SAMPLE:
            return None
        most = sorted(at, key=at.get, reverse=True)
        before = accumulate([0] + [at[line] for line in most])
        lines = [line_of(line) for line, so_far in zip(most, before) if so_far < HOT * sum(at.values())]
        numbers = [line.number for line in lines if line and lines[0] and line.file == lines[0].file]
        called = max(ran, key=ran.get, default=())
        function = next((name for name in called[::-1] if OF_SYSTEM not in name), "main")
        return (lines[0].file, min(numbers), max(numbers), function) if numbers else None

    def function(self, place):
        """That which the place's code is in; that of the construct that ends it where it begins with none."""
        functions = self.facts.functions
        if self.hot(place):
            return self.hot(place)[3]
        at = line_of(place.at) or line_of(place.last_end)
        if at:
            return functions.get("%s:%d" % at, "")
        begin, end = code_at(place.at), code_at(place.last_end)
        if place.kind != SERIAL:
            return begin or end
        if self.facts.interpreter:
            return "code in libraries of " + self.facts.interpreter
        return "code %s %s" % ("after" if begin else "before", begin or end) if begin or end else "main"

    def suspect(self, places=None):
        """What may slow code of these places, or that has much of the cost, on several threads: an atomic operation, or
        items of threads next to each other; None where the source shows neither."""
        found = places or [one for one in self.facts.places.values() if one.cost > MUCH_CODE * self.facts.code]
        for place in sorted(found, key=lambda place: -place.cost):
            one = self.contended(place) or self.suspect_in(*self.stretch(place))
            if one and (not one.is_atomic or self.has_run(place, one)):
                return one
        return None

    def has_run(self, place, atomic):
        """Whether samples met its statement, where the place has some: it may stand in code that is not compiled."""
        at, line = self.facts.calls.at.get(place.name, {}), line_of(atomic.at)
        lines = [one.number - line.number for one in map(line_of, at) if one and one.file == line.file]
        return sum(at.values()) < LEAST * A_SAMPLE or any(0 <= below <= OF_A_STATEMENT for below in lines)

    def contended(self, place):
        """The same by samples: what the lines have that use memory which threads share, or else the first of them."""
        shares, ran = (found.get(place.name, {}) for found in (self.facts.calls.shares, self.facts.calls.ran))
        if sum(shares.values()) < MUCH_SHARED * sum(ran.values()):
            return None
        lines = list(filter(None, map(line_of, sorted(shares, key=shares.get, reverse=True))))
        found = (self.suspect_in(line.file, self.with_directive(line), line.number) for line in lines)
        return next(filter(None, found), Suspect("", "%s:%d" % lines[0]) if lines else None)

    def with_directive(self, line):
        """The line before, where it is a directive."""
        before = self.lines_of(line.file)[max(line.number - 2, 0):line.number - 1]
        return line.number - any(map(DIRECTIVE.match, before))

    def suspect_in(self, file, first, last):
        """What these lines have."""
        lines, first = self.lines_of(file), first or last
        if not 0 < first <= last <= len(lines):
            return None
        for number in range(first, last + 1):
            if ATOMIC.search(lines[number - 1]):
                return Suspect("", "%s:%d" % (file, number), is_atomic=True)
        item = own_item(lines, first, last)
        return Suspect(item[0], "%s:%d" % (file, item[1])) if item else None

    def line(self, name):
        """The same of a wait, a lock or a region."""
        line = self.begin(name, name)
        return (line.file, line.number, line.number) if line else ("", 0, 0)

    def function_at(self, name):
        line = line_of(name)
        return self.facts.functions.get("%s:%d" % line, "") if line else ""

    def called(self, place):
        """The function that a task's statement calls, if it is one call alone; else that which the task is in."""
        line = self.begin(place.name, place.at)
        lines = self.lines_of(line.file) if line else []
        if line and 0 < line.number < len(lines):
            begin = after_directive(lines, line.number)
            while begin < len(lines) and lines[begin - 1].strip() in ("", "{"):
                begin += 1
            call = CALL.match(lines[begin - 1].strip())
            if call and call[1] not in NO_CALLS and statement_end(lines, begin) == begin:
                return call[1]
        return self.function(place)

    def place(self, name):
        """In few words, such as `sort.c:9 (merge)` for tasks, and `main (sort.c:18-25)` for other code."""
        place = self.facts.places.get(name)
        if not place:
            return self.other(name)
        if place.tasks and line_of(place.at) and not name.startswith(OWN):
            function, line = self.called(place), self.begin(name, place.at)
            return "%s:%d%s" % (*line, " (%s)" % function if function not in ("", "main") else "")
        ran = self.ran(place)
        if ran:
            called = "%s (called by %s)" % (ran.function, ran.caller) if ran.caller else ran.function
            return called if len(called) <= LONGEST_CALLED else ran.function
        file, first, last = self.stretch(place)
        function = self.function(place) or "code"
        if not file:
            return function if function != "code" else self.spelt(name)
        if first and last > first:
            return "%s (%s:%d-%d)" % (function, file, first, last)
        return "%s (%s%s:%d)" % (function, "" if first else "before ", file, first or last)

    def at(self, name):
        """The file and line of a place's construct; or else the function that has it, or the place's name."""
        place = self.facts.places.get(name)
        line = self.begin(name, place.at if place else name)
        if line:
            return "%s:%d" % line
        return place and place.kind != SERIAL and code_at(place.at) or self.place(name).partition(" (")[0]

    def ran(self, place):
        """The function in which serial code, or that of a thread, spent most of its time; None if it is not known."""
        return innermost(called_code(self.facts, place)) if place.kind in (SERIAL, OF_THREADS) else None

    def other(self, name):
        """A wait, a lock or a region."""
        lock, reported = self.lock(name), self.spelt(name)
        if name.startswith(ALLOCATION):
            function, at = self.function_at(name), name[len(ALLOCATION):]
            return "%s (%s)" % (function, at) if function else at
        if lock:
            return "%s%s" % (lock.kind, " at " + reported if lock.place else "")
        return reported if not name.startswith(("taskwait", "taskgroup", "barrier")) else "the " + reported

    def item(self, place, item):
        """Of a place's tasks, such as `inout: tab[0]`, where the source tells it. gcc's code has the items of a task in
        reverse order."""
        kind = item[0]
        directive = items_in(self.directive(place.name, place.at))
        written, index = directive.get(kind, [])[::-1 if self.facts.is_of_gcc else 1], place.positions.get(item)
        return "%s: %s" % (written[index] if index is not None and index < len(written) else (kind, UNNAMED))

    def read_only(self, place):
        """What tasks hold to write, and may only read, as the source spells it."""
        written = items_in(self.directive(place.name, place.at)).get("inout", [])
        last = len(written) - 1
        at = sorted(last - one if self.facts.is_of_gcc else one for one in place.read_at)
        return [written[one][1] for one in at if 0 <= one <= last] or [UNNAMED]


def call_of(calls):
    """The function that code slept in."""
    return OF_LIBRARY.sub("", calls[-1].partition(OF_SYSTEM)[0])


def by_call(sampled):
    """The function that code slept in and what called it, each empty where it is not known, and the share of the sleep:
    the most first."""
    found, whole = Counter(), sum(sampled.values())
    for calls, time in sampled.items():
        found[call_of(calls), caller_of(calls, len(calls) - 1)] += time
    return [(call, time / whole) for call, time in sorted(found.items(), key=lambda pair: (-pair[1], pair[0])) if whole]


def is_of_programs(facts, name):
    """Whether most of a place's sleep is for other programs, which need processors too: by its calls, or where no
    sample knows these, by the processor time of all programs that it started."""
    if not facts.calls.slept.get(name):
        return facts.children >= MOST_SLEEP * max(facts.asleep, 1)
    return any(call in FOR_PROGRAMS and share >= MOST_SLEEP for (call, _), share in by_call(facts.calls.slept[name]))


def threads_for_sleep(facts):
    """So many that all processors run code while others sleep, but for few that wait most of the time; 0 where the run
    had as many."""
    busy = max(facts.code / max(facts.code + facts.asleep, 1), 1 / MOST_EACH)
    number = round(facts.usable / busy)
    return number if number > facts.threads else 0


def sooner(facts, name, threads):
    """What else ends the waits sooner; `threads` as a step has them."""
    place = facts.places.get(name)
    if is_of_programs(facts, name):
        return ", or several at once" if place and place.kind == SERIAL else ", or the longest first"
    return {None: ", or use more threads", 0: ""}.get(threads, ", or use %s threads" % threads)


def words_of_sleep(facts, name, reported):
    """Such as `in read, called by load`, or of MPI for other ranks; two calls with their shares. What it may be where
    no sample tells."""
    sampled = by_call(facts.calls.slept.get(name, {}))
    found = [(call, share) for call, share in sampled[:2] if share >= LEAST_SLEEP and call[0]]
    if not found:
        return FOR_PROGRAM if is_of_programs(facts, name) else "for files, a network or other locks"
    named = [function + (", called by " + caller if caller not in reported else "") for (function, caller), _ in found]
    if len(found) == 1 or found[0][1] >= MOST_SLEEP:
        return "in " + named[0] + (" " + FOR_PROGRAM if is_of_programs(facts, name) else "")
    return "in " + " and ".join("%s (%.0f %%)" % (one, 100 * share) for one, (_, share) in zip(named, found))


def sleeper(names, name):
    """What waits: a place's code; or where that is known by a function that it ran, and that slept little, the one that
    slept."""
    place, slept = names.facts.places.get(name), names.facts.calls.slept.get(name, {})
    ran = place and names.ran(place)
    within = sum(time for calls, time in slept.items() if ran and ran.function in calls)
    most = max(slept, key=slept.get, default=())
    function = next(filter(is_of_program, most[-2::-1]), "")
    return function if ran and function and 2 * within < sum(slept.values()) else names.place(name)


def lines_of_sleep(names, name):
    """Of the call with most of the sleep in the function that makes it, or where that is inlined in its file; nothing
    where the source does not show it."""
    place, slept = names.facts.places.get(name), names.facts.calls.slept.get(name, {})
    most = max(slept, key=slept.get, default=())
    file = names.stretch(place)[0] if place and len(most) > 1 else ""
    call = re.compile(r"\b%s\s*\(" % re.escape(call_of(most))) if file else None
    lines = names.lines_of(file)
    found = [number for number, line in enumerate(lines, 1) if call and call.search(COMMENT.sub("", code_of(line)))]
    begin, end = names.body(file, most[-2]) if found else (0, 0)
    return file, [number for number in found if begin <= number <= end] or found


def place_of_sleep(names, name):
    """The lines of the call, at most two; those of the place where they are not known."""
    file, found = lines_of_sleep(names, name)
    if 0 < len(found) <= MOST_LINES:
        return "%s:%s" % (file, " and ".join(map(str, found)))
    place = names.facts.places.get(name)
    file, first, last = names.stretch(place) if place and place.kind == SERIAL else ("", 0, 0)
    return "%s:%d-%d" % (file, first, last) if file and last > first > 0 else names.at(name)


def without_item(directive, spelt):
    """Without an item that is written, and its clause where nothing is left of it; and whether it was there."""
    found = []

    def clause(match):
        kind, items = match[1], split_items(match[2])
        if WRITES.get(kind, kind) != "inout" or spelt not in items:
            return match[0]
        found.append(spelt)
        rest = [item for item in items if item != spelt]
        return "depend(%s: %s)" % (kind, ", ".join(rest)) if rest else ""
    return re.sub(r"\s+", " ", DEPEND.sub(clause, directive)).strip(), bool(found)


def read_only(directive, spelt):
    """The directive with `in` for the item; None where it has no such item."""
    rest, is_there = without_item(directive, spelt)
    return "%s depend(in: %s)" % (rest, spelt) if is_there else None


def diff(names, step):
    """Lines to take out and to put in, of the step's first change; nothing where the source does not show it."""
    change = step.change
    if not change or change.kind not in ("in-for-inout", "read-only", "drop-wait", "drop-depend"):
        return [], []
    facts = names.facts
    place = facts.places.get(step.place)
    if change.kind == "drop-wait":
        return list(filter(None, [names.directive(one.word, one.word) for one in change.requests])), []
    directive = names.directive(place.name, place.at) if place else ""
    if change.kind == "drop-depend":
        rest = re.sub(r"\s+", " ", DEPEND.sub("", directive)).strip()
        return ([directive], [rest]) if directive != rest else ([], [])
    if change.kind == "read-only":
        items, rest = names.read_only(place), directive
        for item in items:
            rest, is_there = without_item(rest, item)
            if not is_there:
                return [], []
        return [re.sub(r"\s+", " ", directive)], ["%s depend(in: %s)" % (rest, ", ".join(items))]
    spelt = names.item(place, ("inout", change.place)).partition(": ")[2]
    changed = read_only(directive, spelt)
    return ([re.sub(r"\s+", " ", directive)], [changed]) if changed else ([], [])
