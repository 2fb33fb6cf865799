"""What the proved program answers of a text of any size, and whether the program that answers is one that was proved.

SPANPROF_LARGE in the environment is the program, and may be several words. Without it spanprof_large is looked for on
the PATH, then in the repository or where `make install` has put it, and then without proofs. Whatever else answers is
named in place of `proved`.
"""
import json
import os
import shutil
import subprocess
from array import array
from concurrent.futures import ThreadPoolExecutor
from contextlib import contextmanager
from functools import lru_cache
from itertools import chain

from spanprof.command import Fault
from spanprof.folders import other_places_of, places_of, shown_program, words_for
from spanprof.program_text import DIVIDER, PIECE, Document, TextFile, opened, read_once

LARGE = "spanprof_large"
SUMS = ("segments", "work", "on_path", "path", "slack")    # of a place
BUSY, IDLE = "busy", ("delayed", "starved")      # of it in a run
# The limits of `spanprof`. A text beyond them is a long one, which is shown by sums and bins of time, and whose changes
# are tried for a while, where of others each segment is shown and each change is tried.
MOST_TASKS, MOST_SEGMENTS = 4096, 16384
NOT_VERIFIED = "computed by %s, not verified"


def program():
    """The words that start the program; none where it is not found."""
    return words_for(LARGE, places_of(LARGE) + other_places_of(LARGE))


class Refused(Fault):
    """The program's error line, and what it was asked."""

    def __init__(self, words, text, answer):
        from spanprof.refusal import of_whole       # only an error needs what explains it
        more = of_whole(list(words), text, answer, asked)
        super().__init__("spanprof %s: %s" % (words[0], "%s: %s" % (answer, more) if more else answer))
        self.words, self.text, self.answer = list(words), text, answer

    @property
    def is_of_memory(self):
        """Whether there was too little memory for the table and the graph of the whole text."""
        return self.answer.startswith(("error: out of memory", "it ended with status -"))

    def of(self, name):
        """The same for people, with the name of the text's file."""
        from spanprof.refusal import explained
        more = explained(name, self.words, str(self.text), self.answer, asked)
        return "%s\n%s" % (more, self) if more else "%s: %s" % (name, self)


def refused(words, text, answer, status):
    return Refused(words, text, answer.strip() or "it ended with status %d" % status)


def words_to_start(words):
    start = program()
    if not start:
        raise Fault("spanprof_large is neither on the PATH nor built: %s; ./demo builds it" %
                    places_of(LARGE)[0])
    return start + list(words)


@contextmanager
def starting(words):
    """Has the fault name a program that cannot be started."""
    try:
        yield
    except OSError as error:
        where = LARGE.upper() if os.environ.get(LARGE.upper()) else LARGE
        raise Fault("%s: %s: %s; README.md says how to build it" % (where, words[0], error.strerror)) from error


def run(words, text):
    """The program's run with these words on this input, which is a text or a TextFile."""
    start = words_to_start(words)
    with opened(text) as file, starting(start):
        return subprocess.run(start, stdin=file, capture_output=True, text=True, errors="replace", check=False)


def meanwhile(answer, *words):
    """Begins to ask; what is answered then waits for it."""
    pool = ThreadPoolExecutor(1)
    asked = pool.submit(answer, *words)
    pool.shutdown(wait=False)
    return asked.result


def at_once(answer, questions):
    """The answers in the order of the questions, as many at once as there are processors."""
    with ThreadPoolExecutor(len(os.sched_getaffinity(0))) as pool:
        return list(pool.map(answer, questions))


def asked(words, text):
    """What the program prints, whatever its exit status."""
    return run(words, text).stdout


def ask(words, text):
    """What the program prints for these words and this input."""
    done = run(words, text)
    if done.returncode:
        raise refused(words, text, done.stdout, done.returncode)
    return done.stdout


def pieces(words, text):
    """The same as bytes, as they come: first the first line alone, and then as many as there are."""
    start = words_to_start(words)
    with opened(text) as file:
        with starting(start):
            running = subprocess.Popen(start, stdin=file, stdout=subprocess.PIPE, stderr=subprocess.DEVNULL)
        with running:
            first = running.stdout.readline()
            yield first
            while piece := running.stdout.read(PIECE):
                yield piece + running.stdout.readline()
    if running.returncode:
        raise refused(words, text, first.decode(errors="replace"), running.returncode)


OTHER_ROWS = "spanprof %s: rows of another form"


def columns(words, text, wanted):
    """Of a table of whole numbers the columns of these names, as arrays; a cell without a number is -1."""
    reported = pieces(words, text)
    heads = next(reported).decode(errors="replace").rstrip("\n").split(",")
    out = [array("q") for _ in wanted]
    for piece in reported:
        cells = numbers_in(piece.replace(b",\n", b",-1\n").replace(b"\n", b",")[:-1])
        if not set(wanted) <= set(heads) or len(cells) != len(heads) * piece.count(b"\n"):
            raise Fault(OTHER_ROWS % words[0])
        try:
            for name, column in zip(wanted, out):
                column.fromlist(cells[heads.index(name)::len(heads)])
        except (TypeError, OverflowError) as wrong:     # no whole numbers, or too large ones
            raise Fault(OTHER_ROWS % words[0]) from wrong
    return out


def numbers_in(cells):
    """Of bytes with commas between them; nothing where they are no numbers. There are millions, and this is the
    fastest."""
    try:
        return json.loads(b"[%s]" % cells)
    except ValueError:
        return []


def places(path, numbers, wanted=SUMS, times=(), file_of_times=""):
    """Of the text in a file, of which each segment stands at the place of its number, these columns of `places`.
    `times` are lines, or all stand in a file."""
    numbers = list(numbers)
    words = {number: str(number) for number in set(numbers)}
    lines = [" ".join(map(words.__getitem__, numbers)) + "\n"]
    divider = [DIVIDER + "\n"] * bool(times or file_of_times)
    return columns(["places"], Document(path, chain(lines, divider, times), file_of_times), wanted)


def named_numbers(lines):
    """`work 11` and the like."""
    pairs = (line.split() for line in lines.split("\n") if line)
    return {name: int(value) for name, value in pairs}


def numbers(text):
    """Tasks, segments, work and span of a text."""
    try:
        found = named_numbers(ask(["span"], text))
    except ValueError:
        found = {}
    if not {"segments", "work", "span"} <= found.keys():
        raise Fault("%s does not answer as spanprof does" % " ".join(program()))
    return found


@read_once
def numbers_of_file(path, *_):
    return numbers(TextFile(path))


def measured(path):
    """The same of a text in a file, which is asked once; its fault names the file and the line."""
    try:
        return numbers_of_file(path, *program())
    except Refused as wrong:
        raise Fault(wrong.of(path)) from wrong


def rows(table):
    """The rows of a CSV without quotes, as dictionaries of texts."""
    lines = table.split("\n")
    heads = lines[0].split(",")
    return [dict(zip(heads, line.split(","))) for line in lines[1:] if line]


def predecessors(text):
    """The kept ones of each segment, as `graph` prints them."""
    reported = pieces(["graph"], text)
    next(reported)
    return [[int(p) for p in line.rpartition(b",")[2].split()] for piece in reported for line in piece.splitlines()]


def read(path):
    """The program text in a file, which the program has taken."""
    measured(path)
    return str(TextFile(path))


def is_long(numbers):
    """By what `span` tells of a text."""
    return numbers["segments"] > MOST_SEGMENTS or numbers.get("tasks", 0) > MOST_TASKS


@lru_cache(maxsize=None)
def not_proved():
    """What is said, in place of `proved`, of what the program computes that the tools ask; empty of a proved one with
    nothing else. It is read once in a run."""
    from spanprof.checksums import is_proved    # only what says `proved` needs it
    words = program()
    found = shutil.which(words[0]) if len(words) == 1 else None
    return "" if found and is_proved(os.path.realpath(found)) else NOT_VERIFIED % " ".join(map(shown_program, words))


def proved(claim):
    """This claim, which says `proved`, or what is said in its place."""
    return not_proved() or claim
