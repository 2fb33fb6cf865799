"""What the checks share that record programs: the recorder, a program that LLVM builds, and what is made of a log.

A recording that the library alone makes is NAME.spanprof, with a log and no text. The converter makes texts of its
regions, NAME.tasks and so on, or of the whole program; what it is asked for stands in its environment. RECORDER in the
environment names another recorder's library, LLVM the version of the compiler. RUNTIME=gnu: gcc's compiler and runtime.
"""
import glob
import os
import shutil
import subprocess
import sys

import segments
from versions import asked

TOP = os.path.dirname(os.path.dirname(os.path.dirname(os.path.abspath(__file__))))
sys.path.append(os.path.join(TOP, "tools"))
from spanprof.converting import convert, converter, has_failed  # noqa: E402
from spanprof.remarks import sentence_of  # noqa: E402

RECORDER = os.path.abspath(os.environ.get("RECORDER", os.path.join(TOP, "tools/openmp_recorder/librecorder.so")))
ENDING = ".spanprof"


ON_GCC = os.environ.get("RUNTIME") == "gnu"
LOADED = {"LD_PRELOAD" if ON_GCC else "OMP_TOOL_LIBRARIES": RECORDER}   # how the recorder comes into a program


class Wrong(Exception):
    """What a check found."""


def build(source, folder):
    """The program of this source."""
    program = os.path.join(folder, "program")
    compiler = ["gcc"] if ON_GCC else asked(os.environ.get("LLVM", ""))[0].compiler()
    subprocess.run(compiler + ["-O2", "-g", "-fopenmp", source, "-o", program], check=True)
    return program


def counted_clock(folder):
    """A library for LD_PRELOAD: a processor's clock that counts its readings, the same however busy the machine is."""
    library = os.path.join(folder, "counted_clock.so")
    source = os.path.join(TOP, "checks", "recorders", "openmp_cases", "clock", "counted_clock.c")
    subprocess.run(["cc", "-O2", "-shared", "-fPIC", source, "-o", library], check=True)
    return library


def log_of(name):
    """Where the log of a recording lies."""
    return os.path.join(name + ENDING, "log")


def paths_of(name):
    """What this name has, with any ending: a turn 3 has nothing of the turn 30."""
    return [path for path in glob.glob(glob.escape(name) + "*") if not path[len(name):len(name) + 1].isalnum()]


def names_of(name):
    """Those of the recordings that a run made: the program's own first, then its children's."""
    found = [path[:-len(ENDING)] for path in paths_of(name) if path.endswith(ENDING) and os.path.exists(path + "/log")]
    return sorted(found, key=lambda path: (path.count("."), path))


def reported_of(log, out, settings):
    variables = dict(os.environ, **settings)
    reported = convert(converter(print), log, out, variables)
    if variables.get("SPANPROF_WHOLE") == "1" and os.path.exists(out + ".tasks"):
        others = segments.differing(out + ".tasks", out + ".segments")
        if others:
            raise Wrong("%s.segments has another %s than the text" % (out, ", ".join(others)))
    return reported


def texts(name, settings=(), out=None):
    """Makes texts of all logs of a run, each with the name of its recording. What the converter says, and whether it
    failed."""
    reported = [one for each in names_of(name) for one in reported_of(log_of(each), out or each, dict(settings))]
    said = [sentence_of(one) for one in reported]
    return "".join(line + "\n" for line in said), has_failed(reported)


def made_texts(name, settings=(), out=None):
    """The same, where all of it has to succeed."""
    said, failed = texts(name, settings, out)
    if failed:
        raise Wrong("the log is not converted: " + said)
    return said


def remove(name):
    """Recordings and texts of this name."""
    for path in paths_of(name):
        shutil.rmtree(path) if os.path.isdir(path) else os.remove(path)
