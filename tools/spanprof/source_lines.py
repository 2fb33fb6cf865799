"""Lines of the source that a place names, such as `sort.c:33`, where the file is found, and which of them a place's
segments run: from where they begin to the construct that ends them. Its text tells where the statement of a directive
ends, by its braces and semicolons alone; of a directive its line, where the compiler gave another one, and whether a
wait stands in the loop that makes the tasks.
"""
import os
import re
from collections import Counter
from typing import NamedTuple, Optional

from spanprof.program_text import CALLED_FROM

MOST_ENTRIES = 20000  # of the folders that are searched
WHERE = re.compile(r"([^\s:/]+):(\d+)(?:,.*)?$")
STRING = re.compile(r'"(?:\\.|[^"\\])*"|\'(?:\\.|[^\'\\])*\'|//.*|/\*.*?\*/')
OF_A_STATEMENT = ("task at ", "turns of the loop at ", "a section at ")
WITH_A_STATEMENT = (*OF_A_STATEMENT, "after creating a task at ", "after taskgroup at ",
                    "after the barrier of the region at ", "after the loop at ", "after the sections at ")
LONGEST = 2000      # lines of a statement
DIRECTIVE = re.compile(r"\s*#\s*pragma\s+omp\s+(.*)")
CONDITION = re.compile(r"\s*#\s*(if|endif)")
TOP_LEVEL = re.compile(r"[A-Za-z_]")
OF_NUMBER = r"omp_get_thread_num\s*\(\s*\)"
THREAD_NUMBER = re.compile(r"\b(\w+)\s*=\s*" + OF_NUMBER)
POINTER = re.compile(r"[*&]\s*(\w+)\s*=\s*[&(]*\s*$")
LOOP = re.compile(r"\b(for|while|do)\b")
VARIABLE = re.compile(r"\bfor\s*\([^;=:]*?(?:\b(\w+)\s*=|\b(\w+)\s*:[^:])")
COMMENT = re.compile(r"\s*//.*")
CALLED = re.compile(r"(?:[\w.\[\]>-]+\s*[-+*/]?=\s*)?([A-Za-z_]\w*)\s*\((.*)")
# Of the names of places, waits and regions, and what their directives have.
CONSTRUCTS = (("taskwait", "taskwait"), ("taskgroup", "taskgroup"), ("loop", "for"), ("section", "sections"),
              ("task", "task"))
HAVE_STATEMENTS = ("for", "sections", "task", "parallel")


def files_below(folders):
    """The paths of each file name, in these folders and those below them; hidden ones are passed over."""
    found, entries = {}, 0
    for folder in folders:
        for where, below, names in os.walk(folder):
            below[:] = sorted(name for name in below if not name.startswith("."))
            for name in names:
                found.setdefault(name, set()).add(os.path.realpath(os.path.join(where, name)))
            entries += len(names) + len(below)
            if entries > MOST_ENTRIES:
                return found
    return found


class Sources:
    """The lines of the files that were compiled, by the paths that are known of them, or else of files of their names
    below some folders; in those that a person chose first of all. A name that two files have is not guessed at."""

    def __init__(self, folders, known=None, are_chosen=False):
        self.folders, self.known, self.are_chosen = folders, known or {}, are_chosen
        self.files = None
        self.lines = {}

    def below(self, name):
        """The path of the one file of this name in the folders; empty where there is none, or several."""
        if self.files is None:
            self.files = files_below(self.folders)
        paths = self.files.get(name, set())
        return next(iter(paths)) if len(paths) == 1 else ""

    def path_of(self, name):
        known = self.known.get(name, "")
        if os.path.exists(known) and not self.are_chosen:
            return known
        return self.below(name) or known

    def read(self, name):
        try:
            with open(self.path_of(name), encoding="utf-8", errors="replace") as file:
                return file.read().split("\n")
        except OSError:     # such as a file that one may not read
            return []

    def lines_of(self, name):
        """Of a file; none where it is not found."""
        if name not in self.lines:
            self.lines[name] = self.read(name)
        return self.lines[name]


class Line(NamedTuple):
    file: str
    number: int


class Stretch(NamedTuple):
    file: str
    first: int
    last: int

    @property
    def words(self):
        return "line %d" % self.first if self.first == self.last else "lines %d to %d" % (self.first, self.last)


def line_of(words) -> Optional[Line]:
    """Of a construct's comment, such as `sort.c:33`, or of a place that ends so."""
    found = WHERE.search(words.partition(CALLED_FROM)[0])
    return Line(found[1], int(found[2])) if found else None


def first_code(lines, number, otherwise):
    """The first line of code from one on, counted from 1; `otherwise` where the block ends before, as in a loop."""
    for here in range(number, min(len(lines), number + LONGEST) + 1):
        code = lines[here - 1].strip()
        if code.startswith("}"):
            break
        if code not in ("", "{"):
            return here
    return otherwise


def after_directive(lines, number):
    """The line after a directive, which may go on over several."""
    while number < len(lines) and lines[number - 1].rstrip().endswith("\\"):
        number += 1
    return number + 1


def statement_end(lines, number):
    """The last line of the statement that begins there: where its braces close, or at its semicolon."""
    braces = rounds = 0
    for here in range(number, min(len(lines), number + LONGEST) + 1):
        code = "" if lines[here - 1].lstrip().startswith("#") else STRING.sub("", lines[here - 1])
        for sign in code:
            braces += (sign == "{") - (sign == "}")
            rounds += (sign == "(") - (sign == ")")
            if braces < 0 or not braces and (sign == "}" or sign == ";" and not rounds):
                return here
    return number


def code_lines(place, line, lines):
    """The first line of a place's own code, and the last where the statement of its directive tells it."""
    if not 0 < line.number <= len(lines):
        return line.number, line.number
    if not place.startswith(WITH_A_STATEMENT):
        first = first_code(lines, line.number + 1, line.number)
        return first, first
    begin = after_directive(lines, line.number)
    end = statement_end(lines, begin)
    if place.startswith(OF_A_STATEMENT):
        return min(first_code(lines, begin, begin), end), end
    first = first_code(lines, end + 1, line.number)
    return first, first


def stretch_of(place, ends, lines=()):
    """To the line at which most of its segments end that end below its first one. `ends` has how many end where."""
    begin = line_of(place)
    if not begin:
        return None
    first, last = code_lines(place, begin, lines)
    below = Counter()
    for end, count in ends.items():
        line = line_of(end)
        if line and line.file == begin.file and line.number >= first:
            below[line.number] += count
    return Stretch(begin.file, first, below.most_common(1)[0][0] if below else last)


def stretches(answers, places, sources):
    """By the names of the places."""
    ends, out = answers.code.ends, {}
    for place in places:
        begin = line_of(place.name)
        if begin:
            out[place.name] = stretch_of(place.name, sum((ends[kind] for kind in place.kinds), Counter()),
                                         sources.lines_of(begin.file))
    return out


def construct_of(name):
    """A name without words is that of a region."""
    what, _, at = name.partition(" at ")
    return next((construct for words, construct in CONSTRUCTS if at and words in what), "parallel")


def has(line, construct):
    """Whether a line of source begins a directive with this construct."""
    found = DIRECTIVE.match(line)
    return bool(found) and re.search(r"\b%s\b" % construct, found[1]) is not None


def meets_at_end(lines, number):
    """Whether a line begins a loop or sections inside a region, without nowait."""
    text = " ".join(lines[number - 1:after_directive(lines, number) - 1])
    return (has(text, "for") or has(text, "sections")) and not has(text, "(parallel|nowait|distribute)")


def statement_below(lines, number):
    """The first line of code below a directive, and below what the preprocessor reads."""
    number = after_directive(lines, number)
    while number < len(lines) and lines[number - 1].lstrip()[:1] in ("", "#"):
        number = after_directive(lines, number)
    return number


def directive_before(lines, number, construct):
    """Where the function has none after a line, the last before it; the line itself where there is none."""
    for here in range(min(number, len(lines)), max(number - LONGEST, 0), -1):
        if has(lines[here - 1], construct):
            return here
        if CONDITION.match(lines[here - 1]) or TOP_LEVEL.match(lines[here - 1]):
            break
    return number


def directive_above(lines, number):
    """The line at which the directive right above a statement begins; its own where there is none."""
    here = number - 1
    while here > 1 and (not COMMENT.sub("", lines[here - 1]).strip() or lines[here - 2].endswith("\\")):
        here -= 1
    return here if here > 0 and DIRECTIVE.match(lines[here - 1]) else number


def directive_around(lines, number, construct):
    """The innermost one whose statement has this line, and where that ends; 0 where there is none. Of several that may
    be compiled for it, the line itself."""
    conditions, found = 0, []
    for here in range(min(number, len(lines)), max(number - LONGEST, 0), -1):
        end = statement_end(lines, after_directive(lines, here)) if has(lines[here - 1], construct) else 0
        found += [(here, end)] * (end >= number)
        condition = CONDITION.match(lines[here - 1])
        if condition:
            conditions = max(0, conditions + {"if": -1, "endif": 1}[condition[1]])
        if found and not conditions or TOP_LEVEL.match(lines[here - 1]):
            break
    return (number, found[0][1]) if found[1:] else found[0] if found else (0, 0)


def directive_line(lines, number, construct, is_inside=False):
    """That of the directive: gcc may give a construct the line of a statement before it, of its function, or after its
    loop; or, where `is_inside`, of its own statement alone. The line itself where the function has none, or only one
    that may not be compiled."""
    around, end = directive_around(lines, number, construct) if construct in HAVE_STATEMENTS else (0, 0)
    behind = directive_behind(lines, number, construct)
    if around and (is_inside or not number < behind <= end):
        return around
    return behind or directive_before(lines, number, construct)


def directive_behind(lines, number, construct):
    """The first from a line on; the line itself where that may not be compiled, and 0 where the function has none."""
    conditions = 0
    for here in range(number, min(len(lines), number + LONGEST) + 1):
        if has(lines[here - 1], construct):
            return number if conditions else here
        condition = CONDITION.match(lines[here - 1])
        if condition:
            conditions = max(0, conditions + {"if": 1, "endif": -1}[condition[1]])
        if here > number and TOP_LEVEL.match(lines[here - 1]):
            break
    return 0


def code_of(line):
    return "" if line.lstrip().startswith("#") else STRING.sub("", line)


def block_around(lines, number):
    """The line at which the block begins that a line is in; 0 at the top level."""
    closed = 0
    for here in range(min(number - 1, len(lines)), 0, -1):
        for sign in reversed(code_of(lines[here - 1])):
            if sign == "{" and not closed:
                return here
            closed += (sign == "}") - (sign == "{")
    return 0


def own_item(lines, first, last):
    """In these lines, what of an array each thread has by its number, next to what others have: itself, or by a pointer
    to it that is made before, in the function; and its line. None where the source shows none."""
    begin = next((here for here in range(first, 0, -1) if TOP_LEVEL.match(lines[here - 1])), first)
    code = [code_of(line) for line in lines[:last]]
    numbers = {found[1] for line in code[begin - 1:] for found in THREAD_NUMBER.finditer(line)}
    item = re.compile(r"\b\w+\s*\[\s*(?:%s)\s*\]" % "|".join([OF_NUMBER, *sorted(numbers)]))
    for here in range(begin, last + 1):
        found = item.search(code[here - 1])
        pointer = found and POINTER.search(code[here - 1][:found.start()])
        is_used = pointer and any(re.search(r"\b%s\b" % pointer[1], line) for line in code[max(here, first - 1):])
        if found and (is_used or here >= first and not pointer):
            return found[0], here
    return None


def makes_tasks(lines, first, last):
    """Whether the loop that begins at the first of these lines makes tasks, and no loop inside it does."""
    inside = lines[first:last - 1]
    return any(has(line, "task") for line in inside) and not any(LOOP.search(code_of(line)) for line in inside)


def is_of_some_turns(lines, number):
    """Whether a wait is reached in some turns only of the loop that makes the tasks: in an `if` of its body."""
    condition = block_around(lines, number)
    loop = block_around(lines, condition) if condition and "if" in code_of(lines[condition - 1]) else 0
    return bool(loop) and bool(LOOP.search(code_of(lines[loop - 1]))) and makes_tasks(lines, loop, condition)


def ends_a_turn(lines, number):
    """Whether nothing comes behind the only wait of a loop's body, so that nothing there uses what its tasks found; and
    they name the loop's variable, other than to choose among a few: each turn has data of its own."""
    loop = block_around(lines, number)
    variable = VARIABLE.search(code_of(lines[loop - 1])) if loop else None
    behind = next(filter(None, (COMMENT.sub("", code_of(line)).strip() for line in lines[number:])), "")
    body = lines[loop:number - 1]
    if not variable or behind[:1] != "}" or any(has(line, "taskwait") for line in body):
        return False
    used = re.compile(r"\b%s\b(?!\s*[%%&^])" % (variable[1] or variable[2]))
    return any(has(line, "task") for line in body) and any(used.search(code_of(line)) for line in body)


def called_by_task(lines, here):
    """The function that the statement of a task calls first, with all that stands in its line; None where that is no
    call."""
    code = (COMMENT.sub("", code_of(line)).strip(" {") for line in lines[here:here + LONGEST])
    return CALLED.match(next(filter(None, code), ""))


def is_between_halves(lines, number):
    """Whether a wait stands between two tasks of a block that call the same function with other arguments, as each does
    for a part of what there is."""
    block = block_around(lines, number)
    before = [here for here in range(block + 1, min(number, len(lines))) if has(lines[here - 1], "task")]
    behind = next((here for here in range(number + 1, min(number + LONGEST, len(lines)) + 1)
                   if DIRECTIVE.match(lines[here - 1]) or code_of(lines[here - 1]).strip()), 0)
    if not before or not behind or not has(lines[behind - 1], "task"):
        return False
    one, other = called_by_task(lines, before[-1]), called_by_task(lines, behind)
    return bool(one and other) and one[1] == other[1] and one[2] != other[2]


def is_needless(lines, number):
    """Whether a wait may be."""
    return any(test(lines, number) for test in (is_of_some_turns, ends_a_turn, is_between_halves))
