"""Has the converter make texts of a log, and make build it, or another product of these tools, where it is not there.
What the converter is asked for stands in its environment.
"""
import fcntl
import glob
import json
import os
import re
import shutil
import signal
import subprocess
import tempfile
from dataclasses import dataclass

from spanprof.command import Fault, Progress, bytes_read
from spanprof.folders import builds_in
from spanprof.recording import REGIONS, SEGMENTS, TEXT, TIMES, made_folder, program_of


@dataclass
class Product:
    file: str       # which make leaves beside its sources
    name: str       # as messages name it
    packages: str   # that it is built with


def sources(folder):
    patterns = ("*.cpp", "*/**/*.[ch]pp", "Makefile")
    return [path for pattern in patterns for path in glob.glob(os.path.join(folder, pattern), recursive=True)]


def is_built(folder, product):
    """Whether it is there, and no older than what it is made of."""
    made = os.path.join(folder, product.file)
    return os.path.exists(made) and all(os.path.getmtime(made) >= os.path.getmtime(path) for path in sources(folder))


def why_not_built(complaint):
    """The line of make or the compiler that says what is missing."""
    lines = [line.strip() for line in complaint.splitlines() if line.strip()]
    telling = [line for line in lines if re.search("error:|not found|No such file", line)]
    return (telling or lines or ["no word of it"])[0]


def build(folder, product):
    if not shutil.which("make"):
        raise Fault("%s is not built, and make is missing (package make)" % product.name)
    with open(os.path.join(folder, "Makefile"), encoding="utf-8") as lock:  # of processes that need it at once, one
        fcntl.flock(lock, fcntl.LOCK_EX)
        done = subprocess.run(["make", "-s", "-C", folder, product.file], stdout=subprocess.PIPE,
                              stderr=subprocess.STDOUT, text=True, errors="replace", stdin=subprocess.DEVNULL,
                              check=False)
    if done.returncode:
        raise Fault("%s cannot be built: %s (packages %s); `make -C %s` shows more"
                    % (product.name, why_not_built(done.stdout), product.packages, folder))
    made = os.path.join(folder, product.file)
    if os.access(made, os.W_OK):
        os.utime(made)      # a source that it is not made of may be newer


def find_or_build(product, folders, tell):
    """Its path: in the first of these folders that has it, or else its sources."""
    for folder in folders:
        if not sources(folder):
            if os.path.exists(os.path.join(folder, product.file)):
                return os.path.join(folder, product.file)
            continue
        if not is_built(folder, product):
            tell("building %s in %s" % (product.name, folder))
            build(folder, product)
        return os.path.join(folder, product.file)
    raise Fault("%s is neither in %s" % (product.file, " nor in ".join(folders)))


CONVERTER = Product("convert_log", "the converter of logs", "clang-19 libomp-19-dev make")
LIBRARY = Product("librecorder.so", "the recorder", "clang-19 libomp-19-dev make")
RECORDERS = builds_in("openmp_recorder")
LOADERS = ("LD_PRELOAD", "OMP_TOOL_LIBRARIES")  # of the recorded program alone
STEM = "program"
FILES = {".tasks": TEXT, ".times": TIMES, ".regions": REGIONS, ".segments": SEGMENTS, ".off": "off", ".locks": "locks",
         ".calls": "calls"}
FAILED = ("fault", "unwritten")
SECONDS = 0.5       # between two looks at how far the converter is
DIED = {signal.SIGKILL: "it was killed, as the system does where memory is short",
        signal.SIGXFSZ: "a file would be longer than `ulimit -f` allows"}


def converter(tell):
    """The path of the program: in the first of its folders that has it, or else its sources."""
    return find_or_build(CONVERTER, RECORDERS, tell)


def recorder_library(tell):
    """That of the recorder's library."""
    return find_or_build(LIBRARY, RECORDERS, tell)


def convert(program, log, out, variables):
    """What is reported of one log, whose texts are OUT.tasks and so on."""
    rest = {name: value for name, value in variables.items() if name not in LOADERS}
    try:
        process = subprocess.Popen([program, log, out], env=rest, stdout=subprocess.PIPE, text=True,
                                   errors="surrogateescape")
    except OSError as wrong:
        raise Fault("%s: %s" % (program, wrong.strerror)) from wrong
    reported = [json.loads(line) for line in output_of(process, log).splitlines() if line.strip().endswith("}")]
    status = process.returncode
    if status and not has_failed(reported):
        why = "ended with status %d" % status if status > 0 else "died: " + DIED.get(-status, "signal %d" % -status)
        reported.append({"message": "fault", "log": log, "what": "its converter " + why})
    return reported


def output_of(process, log):
    """What the converter prints; a terminal is shown how much of the log it has read, and then that it writes."""
    progress, name = Progress("converting"), os.path.basename(os.path.dirname(log))
    whole = sum(os.path.getsize(path) for path in glob.glob(os.path.join(glob.escape(log), "*"))) or 1
    with process:
        try:
            return at_the_end(process, lambda: show_how_far(progress, name, bytes_read(process) / whole))
        finally:
            progress.end()
            process.kill()      # where this was interrupted


def show_how_far(progress, name, share):
    progress.name = ("reading the log of %s" if share < 1 else "writing the texts of %s") % name
    progress.at(share if share < 1 else None)


def at_the_end(process, meanwhile):
    while True:
        try:
            return process.communicate(timeout=SECONDS)[0]
        except subprocess.TimeoutExpired:
            meanwhile()


def has_failed(reported):
    return any(one["message"] in FAILED for one in reported)


def in_place(reported, new, folder):
    """The same with the files where they are in the end."""
    def moved(value):
        ending = value[len(os.path.join(new, STEM)):] if str(value).startswith(os.path.join(new, STEM)) else None
        return value if ending is None else os.path.join(folder, FILES.get(ending, ""))
    return [{name: moved(value) if name in ("file", "times", "name") else value for name, value in one.items()}
            for one in reported]


def move_in(new, folder):
    """What was there before goes, and is there no longer where the new text has none of it."""
    for ending, name in FILES.items():
        made, path = os.path.join(new, STEM + ending), os.path.join(folder, name)
        if os.path.exists(made):
            os.replace(made, path)
        elif os.path.exists(path):
            os.remove(path)


def convert_into(program, log, folder, variables):
    """Writes the text of the whole program into a recording's folder. Where that fails nothing is changed there."""
    new = tempfile.mkdtemp(prefix=".new-", dir=folder)
    try:
        reported = convert(program, log, os.path.join(new, STEM),
                           dict(variables, SPANPROF_WHOLE="1", SPANPROF_TIMES="1"))
        if not has_failed(reported):
            move_in(new, folder)
        return in_place(reported, new, folder)
    finally:
        shutil.rmtree(new, ignore_errors=True)


def of_region(variables, place):
    """Of the regions at a place the median one."""
    return dict(variables, SPANPROF_WHOLE="0", SPANPROF_TIMES="1", SPANPROF_REGION=place)


def made_text(out):
    """The text of this first name; None where there is none."""
    return out + ".tasks" if os.path.exists(out + ".tasks") else None


def no_region(recording, place):
    program = program_of(recording.text)
    there = [place.name for place in program.places if place.total("tasks")] if program else []
    if not there:
        return Fault("%s: it has no parallel region with tasks" % recording.name)
    return Fault("%s: there is no region with tasks at %s; those are at %s" % (
        recording.name, place or "any place", ", ".join(there)))


def region_text(recording, place="", tell=lambda words: None):
    """The text of the median region at a place, in a file that goes with this process; without a place of that with the
    most code in it."""
    if not recording.log:
        raise Fault("%s: it has no log, of which the text of a region would be made" % recording.name)
    out = os.path.join(made_folder(), "region-" + re.sub(r"\W", "-", os.path.abspath(recording.folder) + place))
    if not made_text(out):
        unit = {"SPANPROF_UNIT": recording.meta["unit"].partition(" ")[0]} if "unit" in recording.meta else {}
        convert(converter(tell), recording.log, out, of_region(dict(os.environ, **unit), place))
    text = made_text(out)
    if not text:
        raise no_region(recording, place)
    return text


def logs_in(folder):
    """The recordings below a folder that have a log, those of the program itself before those of its children."""
    found = [os.path.dirname(log) for log in glob.glob(os.path.join(glob.escape(folder), "*.spanprof", "log"))]
    return sorted(found, key=lambda path: (path.count("."), path))
