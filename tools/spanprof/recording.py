"""A recording: the folder NAME.spanprof that spanprof-record leaves, or a plain text with what lies beside it; the
times of its segments, and its regions in the order of time: those without tasks too, and those without a text.

A file of times has `times THREADS FIRST LAST`, and a line `SEGMENT THREAD BEGIN END` for each segment.
"""
import atexit
import functools
import hashlib
import json
import os
import re
import shutil
import sys
import tempfile
from array import array
from dataclasses import dataclass, field
from functools import cached_property
from itertools import repeat
from statistics import median_low
from typing import List, NamedTuple

from spanprof.command import DAMAGE, LONGEST, Fault, naming, reading
from spanprof.head import head_text
from spanprof.program_text import PIECE, read_once

SCHEMA = 1
ENDING = ".spanprof"
META, TEXT, TIMES, LOG, REGIONS = "recording.json", "program.tasks", "times", "log", "regions"
SEGMENTS = "segments"   # of the text, in columns
SCALE = "scale.json"    # of spanprof-record --scale or --full: times of unrecorded runs
CHECKED = (TEXT, TIMES, REGIONS, SEGMENTS, "off", "locks", "calls")    # the log is checked by its converter
CHECKSUMS = {}      # of files that were read
COLUMNS = ("number", "text", "begin_ns", "end_ns", "threads", "tasks", "loops", "code_ns", "inside", "place")
UNKNOWN = "a region"


@dataclass
class Recording:
    """`times` are those of the text's segments: in a folder alone, beside a plain text a document with the text."""
    text: str
    times: str = ""
    folder: str = ""
    log: str = ""
    meta: dict = field(default_factory=dict)

    @property
    def name(self):
        """As people know it."""
        return os.path.basename(self.folder or self.text)

    @property
    def stem(self):
        """The first name of what is made of it, such as a page."""
        return re.sub(r"(\.tasks|%s)$" % re.escape(ENDING), "", self.folder or self.text)

    def file(self, name):
        """Where a file of the folder lies; empty where there is none."""
        path = os.path.join(self.folder, name)
        return path if self.folder and os.path.exists(path) else ""


def checksum(path):
    """It is read again where the file has changed, but not where it was moved."""
    now = os.stat(path)
    key = now.st_dev, now.st_ino, now.st_size, now.st_mtime_ns
    if key not in CHECKSUMS:
        found = hashlib.sha256()
        with open(path, "rb") as file:
            for piece in iter(lambda: file.read(PIECE), b""):
                found.update(piece)
        CHECKSUMS[key] = found.hexdigest()
    return CHECKSUMS[key]


def is_recording(path):
    """Whether this is a recording's folder, whole or not."""
    return os.path.isdir(path) and (os.path.exists(os.path.join(path, META)) or
                                    os.path.exists(os.path.join(path, LOG, "head")))


def log_of(folder):
    log = os.path.join(folder, LOG)
    return log if os.path.isdir(log) else ""


def how_again(folder):
    """What makes a damaged recording whole."""
    return "spanprof-convert %s writes it anew" % folder if log_of(folder) else "record or import it again"


def check_facts(meta):
    """That tools can read on; any fact may be missing."""
    groups = [meta.get(name) or {} for name in ("threads", "usage", "host", "counters", "cost_on_one")]
    groups.append({name: meta.get(name) for name in ("processors", "elapsed_ns", "children_ns")})
    numbers = [number for group in groups for number in group.values() if number is not None]
    numbers += [run[name] for run in meta.get("runs") or [] for name in ("work_ns", "span_ns")]
    numbers += [*(meta.get("true_one") or []), *(meta.get("true_many") or [])]
    words = [meta.get("unit"), *(meta.get("runtime") or {}).values()]
    if not all(isinstance(number, (int, float)) and abs(number) < 2 ** 63 for number in numbers):
        raise ValueError("a fact is no number")
    if not all(word is None or isinstance(word, str) for word in words):
        raise ValueError("a fact is no word")


def read_meta(folder):
    again = how_again(folder)
    try:
        with open(os.path.join(folder, META), encoding="utf-8") as file:
            meta = json.load(file)
        schema = meta["schema"]
        if not isinstance(schema, int) or not isinstance(meta.get("files"), dict):
            raise ValueError("no number of a schema, or no list of files")
        if schema <= SCHEMA:
            check_facts(meta)
    except FileNotFoundError as wrong:
        raise Fault("%s: the recording is not complete, as it has no %s; %s" % (folder, META, again)) from wrong
    except OSError as wrong:
        raise Fault("%s: %s" % (os.path.join(folder, META), wrong.strerror)) from wrong
    except DAMAGE as wrong:
        raise Fault("%s: %s is damaged: %s; %s" % (folder, META, str(wrong)[:LONGEST], again)) from wrong
    if schema > SCHEMA:
        raise Fault("%s: a newer version of spanprof made this recording: its schema is %d, and this version reads %d" %
                    (folder, schema, SCHEMA))
    return meta


def check_file(path, folder, expected):
    """Ends with a fault where a file is missing, or is another one than the folder was made of."""
    name = os.path.basename(path)
    if not os.path.exists(path):
        raise Fault("%s: the recording is not complete: %s is missing; %s" % (folder, name, how_again(folder)))
    if checksum(path) != expected:
        raise Fault("%s: %s is not the file that was recorded: its checksum differs; %s" % (
            folder, name, how_again(folder)))


def in_folder(folder):
    meta = read_meta(folder)
    for name, expected in meta["files"].items():
        if name in CHECKED:
            check_file(os.path.join(folder, name), folder, expected)
    text = os.path.join(folder, TEXT)
    if TEXT not in meta["files"]:
        raise Fault("%s: the recording has a log and no text; %s" % (folder, how_again(folder)))
    times = os.path.join(folder, TIMES) if TIMES in meta["files"] else ""
    return Recording(text, times, folder, log_of(folder), meta)


def recorded_line(path):
    """That of a text's head which tells when its program was recorded."""
    return next((line for line in head_text(path).splitlines() if line.startswith("# recorded: ")), "")


def beside(text, ending):
    """The file of this ending beside a plain text; empty where there is none, or where it is of another run."""
    path = re.sub(r"\.tasks$", "", text) + ending
    return path if os.path.exists(path) and recorded_line(text) == recorded_line(path) else ""


def folder_of(path):
    """The recording that a path names: its folder, or the text in it; empty for a plain text."""
    path = path.rstrip(os.sep) or path
    if is_recording(path):
        return path
    inside = os.path.basename(path) in CHECKED and is_recording(os.path.dirname(path) or ".")
    return os.path.dirname(path) or "." if inside else ""


def scale_of(path):
    """What unrecorded runs of a recording took; None where there were none, or that cannot be read."""
    folder = folder_of(path)
    try:
        with open(os.path.join(folder, SCALE), encoding="utf-8") as file:
            return json.load(file) if folder else None
    except (OSError, *DAMAGE):
        return None


def open_recording(path):
    """That of a folder or of the text in it, whole and of one run; or a plain text with the times beside it."""
    folder = folder_of(path)
    return in_folder(folder) if folder else Recording(path, beside(path, ".timed"))


@functools.lru_cache(maxsize=None)
def given_text():
    """Standard input in a file, since a text is read more than once."""
    path = os.path.join(made_folder(), "standard_input.tasks")
    with open(path, "wb") as file:
        shutil.copyfileobj(sys.stdin.buffer, file, PIECE)
    return path


def text_of(path):
    """The text that a tool reads where a recording's folder, a text, or `-` for standard input is named."""
    if path == "-":
        return given_text()
    folder = folder_of(path)
    return in_folder(folder).text if folder else path


def shown_name(path):
    """Of a text, as people know it: in a recording's folder they all have one name."""
    folder = folder_of(path)
    return os.path.basename(os.path.abspath(folder)) if folder else os.path.basename(path)


@functools.lru_cache(maxsize=None)
def made_folder():
    """For files that live as long as this process."""
    folder = tempfile.mkdtemp(prefix="spanprof-")
    atexit.register(shutil.rmtree, folder, ignore_errors=True)
    return folder


@functools.lru_cache(maxsize=None)
def joined(text, times):
    """A document of both in a file of its own."""
    handle, path = tempfile.mkstemp(suffix=".timed", dir=made_folder())
    with naming(path), os.fdopen(handle, "wb") as out:
        for part in (text, times):
            if part == times:
                out.write(b"---\n")
            with open(part, "rb") as file:
                shutil.copyfileobj(file, out, PIECE)
    return path


def document(recording):
    """The document `text --- times` that spanprof_large account reads; empty where there are no times."""
    return joined(recording.text, recording.times) if recording.folder and recording.times else recording.times


def head_in(path):
    """Of a file of times the numbers of the first line: its threads, and the first and the last moment."""
    with open(path, encoding="utf-8", errors="replace") as file:
        word, threads, first, last = file.readline().split()
    if word != "times":
        raise ValueError("no times")
    return int(threads), int(first), int(last)


def times_in(path):
    """Of such a file, or of a document with a text before them: the numbers of the first line, and the columns."""
    out = [array("q") for _ in range(4)]
    with open(path, encoding="utf-8", errors="replace") as file:
        head = next((line for line in file if line.startswith("times ")), None)
        if not head:
            raise ValueError("no times")
        while lines := file.readlines(PIECE):
            words = "".join(lines).split()
            if len(words) != 4 * sum(map(bool, map(str.strip, lines))):
                raise ValueError("a line has not four numbers")
            for i, column in enumerate(out):
                column.extend(map(int, words[i::4]))
    return tuple(map(int, head.split()[1:])), out


class Region(NamedTuple):
    """Times are of the wall clock, in nanoseconds since the program began; `code` is of the clock of costs."""
    number: int     # 0 is the program, and its code that outside of all regions
    text: int       # the number of its text; 0 where it has none
    begin: int
    end: int
    threads: int
    tasks: int
    loops: int      # and sections, that were divided among its threads
    code: int
    inside: int     # whether it was met inside another one
    place: str
    asked: int = 0  # threads; 0 where that is not known

    @property
    def elapsed(self):
        return self.end - self.begin

    @property
    def thread_time(self):
        return self.threads * self.elapsed


def union(stretches):
    """How long all of them are, what several have counted once."""
    covered, length = 0, 0
    for begin, end in sorted(stretches):
        length += max(0, end - max(begin, covered))
        covered = max(covered, end)
    return length


@dataclass
class Place:
    """All regions that began at one place, in the order of time."""
    name: str
    number: int = 0
    regions: List[Region] = field(default_factory=list)

    def total(self, what):
        return sum(getattr(region, what) for region in self.regions)

    @property
    def is_inside(self):
        return all(region.inside for region in self.regions)

    @property
    def outermost(self):
        """What elapsed with one of those that were met inside no other, or several at once of several threads."""
        return union((region.begin, region.end) for region in self.regions if not region.inside)

    @property
    def median(self):
        """What the median one of them took."""
        return median_low(region.elapsed for region in self.regions)

    @property
    def longest(self):
        return max(region.elapsed for region in self.regions)


@dataclass
class Program:
    elapsed: int
    regions: List[Region]

    @cached_property
    def places(self):
        """In the order in which the program comes to them."""
        found = {}
        for region in self.regions:
            name = region.place or UNKNOWN
            found.setdefault(name, Place(name, len(found))).regions.append(region)
        return list(found.values())

    @property
    def stretches(self):
        """The program's time piece by piece: begin, end, and the number of the region's place, or None outside."""
        number, now, out = {place.name: place.number for place in self.places}, 0, []
        for region in self.regions:
            begin, end = max(region.begin, now), min(region.end, self.elapsed)
            if region.inside or end <= begin:
                continue
            out += [(now, begin, None)] * (begin > now) + [(begin, end, number[region.place or UNKNOWN])]
            now = end
        return out + [(now, self.elapsed, None)] * (self.elapsed > now)

    @property
    def outside(self):
        return sum(end - begin for begin, end, place in self.stretches if place is None)


def rows_of(names, lines):
    """Column by column, since there may be a million. A table of an older version does not say how many threads were
    asked for."""
    *numbers, place = (names.index(name) for name in COLUMNS)
    columns = list(zip(*(line.split(",", len(names) - 1) for line in filter(None, lines))))
    asked = map(int, columns[names.index("asked")]) if "asked" in names else repeat(0)
    return list(map(Region, *(map(int, columns[number]) for number in numbers), columns[place], asked))


@read_once
def read_regions(path):
    try:
        with open(path, encoding="utf-8", errors="replace") as file:
            heads, *lines = file.read().split("\n")
        names = heads.split(",")
        whole, *rest = rows_of(names, lines)
    except (OSError, IndexError, ValueError) as wrong:
        raise Fault("%s is not a table of regions: %s" % (path, wrong)) from wrong
    if [name for name in names if name != "asked"] != list(COLUMNS) or whole.number != 0 or not whole.elapsed > 0:
        raise Fault("%s is not a table of regions" % path)
    return Program(whole.elapsed, rest)


def most_threads(text):
    """Of a recording's regions; None where it has none."""
    path = os.path.join(folder_of(text), REGIONS)
    if not folder_of(text) or not os.path.exists(path):
        return None
    with reading(path), open(path, encoding="utf-8", errors="replace") as file:
        at = next(file, "").rstrip("\n").split(",").index("threads")
        next(file, "")      # of the program
        return max((int(line.split(",", at + 1)[at]) for line in file if line.strip()), default=None)


def program_of(text):
    """That of a recording, by its text; None of a plain text."""
    path = os.path.join(folder_of(text), REGIONS)
    return read_regions(path) if folder_of(text) and os.path.exists(path) else None
