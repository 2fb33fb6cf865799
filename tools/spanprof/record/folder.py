"""The folder in which a recording is made, NAME.spanprof.part, and the name that it gets once it is whole: of the
program itself, of a rank of MPI, or of a process that it started. LOG.md of the recorder has the head of its log.
"""
import fcntl
import glob
import itertools
import json
import os
import re
import shutil
import struct
from collections import Counter
from typing import NamedTuple

from spanprof.command import DAMAGE, Fault, writing
from spanprof.converting import logs_in
from spanprof.head import head_of
from spanprof.record.runtime import runtimes_of
from spanprof.recording import ENDING, LOG, META, SCHEMA, TEXT, checksum, most_threads

# Each rank with how many there are: of OpenMPI, MVAPICH, MPICH and Intel MPI, and of a step of Slurm.
VARIABLES = (("OMPI_COMM_WORLD_RANK", "OMPI_COMM_WORLD_SIZE"), ("MV2_COMM_WORLD_RANK", "MV2_COMM_WORLD_SIZE"),
             ("PMI_RANK", "PMI_SIZE"), ("SLURM_PROCID", "SLURM_STEP_NUM_TASKS"))
LAUNCHERS = re.compile(r"(mpirun|mpiexec|orterun|prterun|srun|aprun|jsrun)(\.\w+)?")
BEGAN, PROCESS, USAGE = slice(64, 72), slice(80, 84), slice(400, 456)
COUNTED = ("user_ns", "system_ns", "minor_faults", "peak_bytes", "voluntary_switches", "involuntary_switches",
           "children_ns")
NOTED = ".processes"
MOST_NAMED = 3
PART = ".part"


def rank_of(variables):
    """The number of this process, where there are several; else None."""
    for rank, size in VARIABLES:
        words = variables.get(rank, ""), variables.get(size, "")
        if all(re.fullmatch(r"[0-9]{1,9}", word) for word in words):
            return int(words[0]) if int(words[1]) > 1 else None
    return None


def of_rank(out, rank):
    """The name of a rank's recording, as the recorder has it."""
    return out if rank is None else "%s.rank%d" % (out, rank)


def rank_in(folder):
    """The rank whose recording this is, or None."""
    found = re.search(r"\.rank([0-9]+)%s$" % re.escape(ENDING), folder)
    return int(found[1]) if found else None


def is_launcher(path):
    return bool(LAUNCHERS.fullmatch(os.path.basename(path)))


def is_child(folder):
    """Whether a process wrote this recording that the program started."""
    return bool(re.search(r"\.child[0-9]+\.spanprof$", folder))


def check_folder(out, option="--out"):
    """Ends where no file can be written, before anything is run."""
    folder = os.path.dirname(out) or "."
    if not os.path.isdir(folder):
        raise Fault("%s %s: there is no folder %s" % (option, out, folder))
    if not os.access(folder, os.W_OK):
        raise Fault("%s: files cannot be written in this folder; %s names another" % (os.path.abspath(folder), option))


def check_file(path, option):
    """The same of a single file."""
    if path and os.path.isdir(path):
        raise Fault("%s %s: is a folder" % (option, path))
    if path and not os.path.exists(path):
        check_folder(path, option)


def check_name(reader, out):
    """Has the reader of the options end where a recording has no name."""
    if not os.path.basename(out):
        reader.error("--out %s: the name of a recording, and no folder" % (out or "''"))


def in_head(folder, form, where):
    """Numbers of the head of its log; none where it has not so many bytes."""
    try:
        with open(os.path.join(folder, LOG, "head"), "rb") as file:
            return struct.unpack(form, file.read(where.stop)[where])
    except (OSError, struct.error):
        return ()


def begun_at(folder):
    """When the process began that wrote this log."""
    return next(iter(in_head(folder, "=q", BEGAN)), 0)


def process_of(folder):
    """The number of the process that wrote this log."""
    return next(iter(in_head(folder, "=I", PROCESS)), 0)


def usage_in_log(folder):
    """What the system counted of the process; nothing where it was killed before it could write that down."""
    counted = in_head(folder, "=7q", USAGE)
    return dict(zip(COUNTED, counted)) if any(counted) else {}


class Process(NamedTuple):
    processors: int     # that it may use; 0 where that is not known
    name: str           # the last one: it may go on as another program


def expect(out):
    """Makes the file in which they are noted."""
    with open(out + NOTED, "w", encoding="utf-8"):
        pass


def started(out):
    """By number."""
    try:
        with open(out + NOTED, encoding="utf-8", errors="replace") as file:
            lines = [line.rstrip("\n").split(" ", 2) for line in file]
    except OSError:
        return {}
    return {int(line[0]): Process(int(line[1]), line[2]) for line in lines
            if len(line) == 3 and line[0].isdigit() and line[1].isdigit()}


def note_of_others(found, recorded):
    """The sentence on those that are not recorded; empty where there are none."""
    names = Counter(process.name for number, process in found.items() if number not in recorded)
    words = ["%s (%d)" % (name, count) if count > 1 else name for name, count in names.most_common(MOST_NAMED)]
    if not names:
        return ""
    count = sum(names.values())
    return "%d other process%s met no OpenMP: %s" % (count, "es" * (count > 1),
                                                     ", ".join(words + [".."] * (len(names) > MOST_NAMED)))


def files_in(folder):
    """All but recording.json, by their names in the folder."""
    found = []
    for place, _, names in os.walk(folder):
        found += [os.path.relpath(os.path.join(place, name), folder) for name in names]
    return sorted(name for name in found if name != META and not name.startswith("."))


def of_text(text):
    """What the head of the text and the table of regions tell."""
    head = head_of(text)
    covered = head.covered / head.thread_time if head.thread_time and head.covered is not None else None
    return {"program": head.program, "date": head.date, "clock": head.clock, "unit": head.unit, "coverage": covered,
            "threads": {"most": most_threads(text)}}


def merged(old, new):
    """Numbers of threads come from two sides."""
    reported = [{name: value for name, value in (one.get("threads") or {}).items() if value is not None}
                for one in (old, new)]
    threads = {**reported[0], **reported[1]}
    return {**old, **{name: value for name, value in new.items() if value is not None}, "threads": threads}


def write_meta(folder, facts):
    """Written last: with it the folder is whole. `facts` are those of the run."""
    reported = {"schema": SCHEMA, **facts}
    if os.path.exists(os.path.join(folder, TEXT)):
        reported = merged(reported, of_text(os.path.join(folder, TEXT)))
    reported["runtime"] = next(iter(runtimes_of(os.path.join(folder, LOG))), None) or reported.get("runtime")
    reported["files"] = {name: checksum(os.path.join(folder, name)) for name in files_in(folder)}
    path = os.path.join(folder, META)
    with writing(path) as file:
        json.dump(reported, file, indent=1)
        file.write("\n")
    return reported


def old_meta(folder):
    """What an earlier recording.json of the folder tells of its run; nothing where it is not whole."""
    try:
        with open(os.path.join(folder, META), encoding="utf-8") as file:
            reported = json.load(file)
    except (OSError, *DAMAGE):
        return {}
    return reported if isinstance(reported, dict) else {}


def taken(name):
    """The recordings that are there under this name: of the program, of its ranks, of its children."""
    found = glob.glob(glob.escape(name) + "*" + ENDING)
    return [path for path in found if re.fullmatch(r"(\.rank\d+)?(\.child\d+)?", path[len(name):-len(ENDING)])]


def locked(folder):
    """A descriptor that holds the folder as long as this process lives; None where another process holds it."""
    handle = os.open(folder, os.O_RDONLY | os.O_DIRECTORY)
    try:
        fcntl.flock(handle, fcntl.LOCK_EX | fcntl.LOCK_NB)
        return handle
    except OSError:
        os.close(handle)
        return None


def remove_left_behind(part):
    """Where the process that made it was killed."""
    handle = locked(part) if os.path.isdir(part) else None
    if handle is not None:
        shutil.rmtree(part, ignore_errors=True)
        os.close(handle)


def begun(part):
    """The lock on a new folder of this name; None where the name is taken."""
    try:
        os.mkdir(part)
        return locked(part)
    except FileExistsError:
        return None
    except OSError as wrong:
        raise Fault("%s: %s" % (part, wrong.strerror)) from wrong


class Work:
    """A recording that is being made. An earlier one of the name stays, and this one gets the next name; or it goes
    when this one is whole, where that is asked for."""

    def __init__(self, out, force):
        for number in itertools.count(1):
            self.name, self.replaces = out + "-%d" % number * (number > 1), force and number == 1
            self.part = self.name + ENDING + PART
            if self.replaces:
                remove_left_behind(self.part)
            self.handle = begun(self.part)
            if self.handle is None:
                continue
            if self.replaces or not taken(self.name):
                break
            self.remove()
        self.stem = os.path.join(self.part, os.path.basename(out))
        self.is_renamed = number > 1

    @property
    def folders(self):
        """Those with a log, the program's own first."""
        return logs_in(self.part)

    def remove(self):
        shutil.rmtree(self.part, ignore_errors=True)
        os.close(self.handle)

    def publish(self):
        """Gives all folders their names, and answers which has which. The folder that they were made in goes."""
        moved = {folder: self.name + end + ENDING for folder, end in ends(self.folders, self.stem).items()}
        for old in taken(self.name) if self.replaces and moved else ():
            shutil.rmtree(old)
        for folder, final in moved.items():
            os.rename(folder, final)
        self.remove()
        return moved

    def close(self):
        """What was not published by then, since something went wrong, keeps its log, which can be converted."""
        return self.publish() if os.path.isdir(self.part) else {}


def ends(folders, stem):
    """Of each folder what stands behind the name in its own: of a rank its number, and of children a number in the
    order in which they began."""
    out, children = {}, {}
    for folder in sorted(folders, key=begun_at):
        own = folder[len(stem):-len(ENDING)]
        rank = re.match(r"(\.rank\d+)?", own)[0]
        if own != rank:
            children[rank] = children.get(rank, 0) + 1
        out[folder] = rank + (".child%d" % children[rank] if own != rank else "")
    return dict(sorted(out.items(), key=lambda pair: (pair[1].count("."), pair[1])))
