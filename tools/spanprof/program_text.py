"""A program text in a file, of any size, which a program reads there; a text without loops as statements, each with its
place in the source, and back; and as a row of numbers, one for each statement: each kind is read once.

A comment belongs to the construct that stands on its line. Marks are statements as they are read. Of `Statements`
changes make others: from 0 on a number is the cost of a piece of work, and below 0 it stands for another statement.
Beside each number is that of the work's place.
"""
import os
import re
import shutil
import tempfile
from array import array
from contextlib import contextmanager, nullcontext
from dataclasses import dataclass
from functools import lru_cache, wraps
from itertools import chain, compress, islice
from threading import Lock
from typing import NamedTuple, Tuple

from spanprof.command import naming

DIVIDER = "---"
HEADER = "omptasks"
BLOCKS = ("task", "taskgroup")
OF_A_THREAD = "one of the region's threads"     # as the recorder names a task that stands for a thread's own code
BARRIER = "barrier of the region"   # a group of such tasks, in whose end their threads meet; in the program it is none
BEGINNING = "the beginning"     # the code before all constructs
TURNS, SECTION = "turns of the loop", "a section"   # as the recorder names tasks that stand for these
LOOP, SECTIONS = "the loop", "the sections"     # and the groups around them; the program has no such task or group
CALLED_FROM = " called from "   # behind a task's place, where several paths of calls led to its creation
TOKEN = re.compile(r"[A-Za-z0-9_]+|[^\sA-Za-z0-9_]")
DEPEND = re.compile(r"depend\((\w+):([^)]*)\)")
UNDEFERRED = re.compile(r"if\(0+\)")
PIECE = 1 << 20         # bytes that are read at a time
LINES_OF_A_HEAD = 1000
CREATING = "creating a task"
MOST_KNOWN = 100000     # lines that are kept
MOST_COSTS = 50000      # of these, that are work
LONGEST_KNOWN = 1000    # bytes of such a line
MOST = 2 ** 63 - 1      # that a cost may be, far beyond what spanprof takes
WHOLE = re.compile(r"[ \t]*(?:(work) (\d+)|(taskwait|\})|(taskgroup|task)( [\w(): ,]*)?\{|omptasks \d)?[ \t]*"
                   r"(?:#(.*))?\s*")


@dataclass
class Segment:
    task: int
    task_place: str
    after: str          # the construct that it follows; empty for a task's first
    after_place: str
    cost: int = 0

    def place(self):
        """Where its code stands: the construct that it follows, or the task that it begins."""
        if self.after == "creating a task" and self.after_place.startswith(OF_A_THREAD):
            return "starting " + self.after_place
        if self.after_place.startswith(BARRIER):
            return "after the " + self.after_place
        if self.after == "creating a task" and is_share(self.after_place):
            return "between " + re.sub("^a section", "sections", self.after_place)
        if self.after == "taskgroup" and is_shared_out(self.after_place):
            return "after " + self.after_place
        if self.after:
            after = "after " + self.after if self.after_place or " " in self.after else "after a " + self.after
            return after + " at " + self.after_place if self.after_place else after
        if self.task == 0:
            return BEGINNING
        return named("task", self.task_place)


def is_one_of(names, words):
    """Whether these are one of the names, alone or with what follows it."""
    return words.startswith(names) and words.partition(" at ")[0].partition(",")[0] in names


@lru_cache(maxsize=4096)
def is_share(words):
    """Whether the comment, or the name, is that of a task that stands for turns of a loop, or for a section."""
    return is_one_of((TURNS, SECTION), words)


def is_programs(comment):
    """Whether a task of this comment is one that the program makes."""
    return not (comment.startswith(OF_A_THREAD) or is_share(comment))


def is_shared_out(words):
    """The same of the group around all of them that one thread ran."""
    return is_one_of((LOOP, SECTIONS), words)


def lines_of(text):
    """The tokens of each line, and its comment."""
    for line in text.split("\n"):
        code, _, comment = line.partition("#")
        yield TOKEN.findall(code), comment.strip()


def words_of(text):
    """The tokens of a text, each with the comment of its line."""
    for words, comment in lines_of(text):
        yield from ((word, comment) for word in words)


def has_loops(text):
    """Whether the text is of version 2; its canonical text is of version 1."""
    words = [word for word, _ in islice(words_of(text), 2)]
    return len(words) > 1 and words[1].lstrip("0") == "2"


def where(name):
    """The place in a name such as `task at sort.c:9`, with the calls that led there; empty where it has none."""
    return name.partition(" at ")[2]


class Statement(NamedTuple):
    """`kind` is work, task, taskwait, taskgroup, or end. The name of a `work` is that of its segment's place."""
    kind: str
    name: str = ""
    cost: int = 0
    of: str = ""                # what an end closes
    is_undeferred: bool = False
    items: Tuple[Tuple[str, str], ...] = ()     # of a task: type and name
    comment: str = ""


def named(kind, comment):
    if comment.startswith((OF_A_THREAD, BARRIER)):
        return ("code of " if kind == "task" else "the ") + comment
    if kind == "task" and is_share(comment) or kind == "taskgroup" and is_shared_out(comment):
        return comment
    return "%s at %s" % (kind, comment) if comment else "a " + kind


def construct(kind, code, comment):
    """Of a word, and what stands with it: the clauses up to the body."""
    if kind == "task" and code:
        items = tuple((of, name) for of, names in DEPEND.findall(code) for name in names.split(","))
        return Statement(kind, named(kind, comment), is_undeferred=bool(UNDEFERRED.search(code)), items=items,
                         comment=comment)
    return Statement(kind, named(kind, comment), comment=comment)


def clauses(task):
    """Neighbouring items of one type share a clause."""
    out, last = ["if(0)"] if task.is_undeferred else [], ""
    for kind, name in task.items:
        if kind == last:
            out[-1] = "%s, %s)" % (out[-1][:-1], name)
        else:
            out.append("depend(%s: %s)" % (kind, name))
        last = kind
    return "".join(" " + clause for clause in out)


@lru_cache(maxsize=1 << 16)
def line_for(statement):
    comment = "  # " + statement.comment if statement.comment else ""
    if statement.kind == "task":
        return "task%s {%s\n" % (clauses(statement), comment)
    if statement.kind == "taskgroup":
        return "taskgroup {%s\n" % comment
    return "}\n" if statement.kind == "end" else "taskwait%s\n" % comment


class TextFile:
    """A text in a file, which the program reads there. Of a document or certificate it is the part before the
    divider."""

    def __init__(self, path):
        self.path = path

    def __str__(self):
        with naming(self.path), open(self.path, encoding="utf-8", errors="replace", newline="") as file:
            return re.split(r"(?m)^---\r?$", file.read())[0]

    def pieces(self):
        """Lists of its lines."""
        with open(self.path, "rb") as file:
            while piece := file.read(PIECE // 4):
                yield (piece + file.readline()).decode("utf-8", "replace").split("\n")

    def lines(self):
        """Of the text, and some that are empty."""
        return iter(str(self).split("\n")) if is_cut(self.path) else chain.from_iterable(self.pieces())

    def has_loops(self):
        """By the header, which is looked for among the first lines."""
        with open(self.path, encoding="utf-8", errors="replace", newline="\n") as file:
            return has_loops("".join(islice(file, LINES_OF_A_HEAD)))

    @contextmanager
    def opened(self):
        if is_cut(self.path):
            with in_a_file(str(self)) as file:
                yield file
        else:
            with open(self.path, "rb") as file:
                yield file


class Document(TextFile):
    """The text in a file, and behind the divider lines on it, which are used up as it is opened, and then another
    file."""

    def __init__(self, path, rest, behind=""):
        super().__init__(path)
        self.rest, self.behind = rest, behind

    @contextmanager
    def opened(self):
        with super().opened() as text, tempfile.TemporaryFile() as file:
            shutil.copyfileobj(text, file, PIECE)
            file.writelines(map(str.encode, chain(("\n%s\n" % DIVIDER,), self.rest)))
            if self.behind:
                with naming(self.behind), open(self.behind, "rb") as more:
                    shutil.copyfileobj(more, file, PIECE)
            file.seek(0)
            yield file


def read_once(read):
    """Of a path, and what else is asked of it; it is read again where the file has changed."""
    @lru_cache(maxsize=2)
    def kept(path, _, *by):
        return read(path, *by)

    @wraps(read)
    def answer(path, *by):
        with naming(path):
            now = os.stat(path)
        return kept(os.path.abspath(path), (now.st_ino, now.st_size, now.st_mtime_ns), *by)
    return answer


@read_once
def is_cut(path):
    """Whether the file goes on behind the text."""
    divider, before = ("\n" + DIVIDER).encode(), b"\n"
    with naming(path), open(path, "rb") as file:
        while piece := file.read(PIECE):
            if divider in before + piece:
                return True
            before = piece[-len(divider):]
    return False


@contextmanager
def in_a_file(text):
    """No pipe, which a program that reads nothing would break."""
    with tempfile.TemporaryFile() as file:
        file.write(text.encode("utf-8", "replace"))
        file.seek(0)
        yield file


def opened(text):
    """A text, a TextFile, or a file that is open."""
    if isinstance(text, str):
        return in_a_file(text)
    return text.opened() if isinstance(text, TextFile) else nullcontext(text)


class Mark(NamedTuple):
    """`code` is what stands between the word and its body, without blanks; the comment is that of the line."""
    word: str
    code: str = ""
    comment: str = ""


def after_words(mark):
    """What code follows that comes after it, or after its end."""
    return CREATING if mark.word == "task" else mark.word


class InPieces(Exception):
    """A line that has parts of statements, or several."""


def is_whole(words):
    """Whether these are all words of a statement, or of the header."""
    if words[0] in BLOCKS:
        return words[-1] == "{"
    return len(words) == (2 if words[0] in ("work", HEADER) else 1)


def marks_in(line, words):
    """The marks that end in a line; `words` has those of a statement that begins before it, or goes on behind it."""
    for word, comment in words_of(line):
        words.append(word)
        if is_whole(words):
            if words[0] != HEADER:
                yield Mark(words[0], "".join(words[1:]).rstrip("{"), comment)
            words.clear()


class Lines(dict):
    """The number of each line; 0 for one without a statement. Most of a recording stand there many times."""

    def __init__(self, number):
        super().__init__()
        self.number = number

    def __missing__(self, line):
        word, _, cost = line.strip(" \t\r\n").partition(" ")
        if word == "work" and cost.isdigit() and cost.isascii():
            number = int(cost)
            if len(self) < MOST_COSTS:
                self[line] = number
            return number
        whole = WHOLE.fullmatch(line)
        if not whole:
            raise InPieces(line)
        work, cost, single, block, code, comment = whole.groups("")
        word = work or single or block
        number = self.number(Mark(word, cost or code.replace(" ", ""), comment.strip())) if word else 0
        if len(self) < MOST_KNOWN and len(line) <= LONGEST_KNOWN:
            self[line] = number
        return number


class Marks:
    """Of the lines of a text that spanprof has taken. A number is the cost of a `work`, of which one that costs nothing
    is left out; or that of another mark, less than 0: `known[-number]` is a Mark."""

    def __init__(self, lines):
        self.known, self.places, self.numbers = [Mark("")], {}, array("q")
        self.read(iter(lines))
        self.name_barriers()

    def number(self, mark):
        if mark.word == "work":
            return int(mark.code)
        if mark not in self.places:
            self.places[mark] = -len(self.known)
            self.known.append(mark)
        return self.places[mark]

    def read(self, lines):
        known, words, line = Lines(self.number), [], ""
        while line is not None and line.rstrip() != DIVIDER:
            try:
                self.numbers.extend(filter(None, map(known.__getitem__, chain([line], lines))))
                return
            except InPieces as found:
                line = str(found)
            while line is not None and line.rstrip() != DIVIDER:
                self.numbers.extend(filter(None, map(self.number, marks_in(line, words))))
                line = next(lines, None)
                if not words:
                    break

    def numbers_of(self, is_one):
        return {-number for number, mark in enumerate(self.known) if is_one(mark)}

    def name_barriers(self):
        """A group of the code of a region's threads has a comment that says so."""
        threads = self.numbers_of(lambda mark: mark.word == "task" and mark.comment.startswith(OF_A_THREAD))
        groups = self.numbers_of(lambda mark: mark.word == "taskgroup" and not mark.comment.startswith(BARRIER))
        groups = groups if threads else set()
        for at in compress(range(len(self.numbers) - 1), map(groups.__contains__, self.numbers)):
            if self.numbers[at + 1] in threads:
                comment = self.known[-self.numbers[at]].comment
                self.numbers[at] = self.number(Mark("taskgroup", "", BARRIER + (" at " + comment) * bool(comment)))

    def __iter__(self):
        return (Mark("work", str(number)) if number > 0 else self.known[-number] for number in self.numbers)


@read_once
def marks_of_file(path):
    """Of a text in a file."""
    return Marks(TextFile(path).lines())


class Written(dict):
    """Of each number its line. Most of a recording's costs stand there many times."""

    def __init__(self, known):
        super().__init__({0: ""})
        self.known = known

    def __missing__(self, number):
        line = "work %d\n" % number if number > 0 else line_for(self.known[-number])
        if len(self) < MOST_KNOWN:
            self[number] = line
        return line


class Statements:
    """They are iterated as statements. Those made by changes, on several threads at once, share what is known with the
    text's own."""
    adding = Lock()

    def __init__(self):
        self.known, self.numbers = [Statement("work")], {}
        self.places, self.place_numbers = [], {}
        self.row, self.at = array("q"), array("I")

    def number(self, statement):
        if statement not in self.numbers:
            with self.adding:
                self.known.append(statement)
                return self.numbers.setdefault(statement, 1 - len(self.known))
        return self.numbers[statement]

    def place(self, name):
        if name not in self.place_numbers:
            with self.adding:
                self.places.append(name)
                return self.place_numbers.setdefault(name, len(self.places) - 1)
        return self.place_numbers[name]

    def __len__(self):
        return len(self.row)

    def __iter__(self):
        return (Statement("work", self.places[at], number) if number >= 0 else self.known[-number]
                for number, at in zip(self.row, self.at))

    def of_kind(self, is_one):
        """The numbers of the statements but work for which this holds."""
        return {-i for i, one in enumerate(self.known[1:], 1) if is_one(one)}

    def work_at(self, place, least=0):
        """Where the work at a place stands that costs so much."""
        wanted = self.place_numbers.get(place, -1)
        return [i for i, at in enumerate(self.at) if at == wanted and self.row[i] >= least]

    def changed(self, row, at=None):
        out = Statements()
        out.known, out.numbers, out.places, out.place_numbers = \
            self.known, self.numbers, self.places, self.place_numbers
        out.row, out.at = row, self.at if at is None else at
        return out

    def only(self, kept):
        """Those for which a byte is not 0."""
        return self.changed(array("q", compress(self.row, kept)), array("I", compress(self.at, kept)))

    def merged(self):
        """Neighbouring pieces of work are one."""
        cost = 0
        for number in self.row:
            if number >= 0:
                cost += number
                continue
            yield cost
            yield number
            cost = 0
        yield cost

    def text(self, version=1):
        return "%s %d\n" % (HEADER, version) + "".join(map(Written(self.known).__getitem__, self.merged()))


def of_marks(marks):
    """Of a text that has been read."""
    out = Statements()
    built = [out.number(construct(*mark)) if mark.word in (*BLOCKS, "taskwait") else 0 for mark in marks.known]
    ends = {word: out.number(Statement("end", of=word)) for word in BLOCKS}
    inside = [out.place(Segment(1, mark.comment, "", "").place()) for mark in marks.known]
    behind = [out.place(Segment(1, "", after_words(mark), mark.comment).place()) for mark in marks.known]
    words, place, blocks = [mark.word for mark in marks.known], out.place(BEGINNING), []
    add, put = out.row.append, out.at.append
    for number in marks.numbers:
        put(place)
        if number > 0:
            add(number)
            continue
        word = words[-number]
        if word == "}":
            number = blocks.pop()
            place = behind[-number]
            add(ends[words[-number]])
            continue
        if word != "taskwait":
            blocks.append(number)
        if word != "taskgroup":
            place = inside[-number] if word == "task" else behind[-number]
        add(built[-number])
    return out


def statements(lines):
    """Of the lines of a text that spanprof has taken."""
    return of_marks(Marks(lines))


def of_stream(stream):
    out = Statements()
    for one in stream:
        is_work = one.kind == "work"
        out.row.append(min(one.cost, MOST) if is_work else out.number(one))
        out.at.append(out.place(one.name) if is_work else 0)
    return out


def as_statements(stream):
    return stream if isinstance(stream, Statements) else of_stream(stream)


def as_text(stream):
    """A text of version 1. Neighbouring pieces of work are one, and none costs nothing."""
    return as_statements(stream).text()
