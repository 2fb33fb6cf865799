"""Compiles a program, runs it with the recorder, and has spanprof judge its run."""
import glob
import os
import shutil
import subprocess
import sys
from dataclasses import dataclass

sys.path.append(os.path.join(os.path.dirname(os.path.abspath(__file__)), "..", "..", "llvm"))
from recording import made_texts, texts  # noqa: E402
from versions import Version, asked  # noqa: E402

SECONDS = 60  # for one run
TOP = os.path.dirname(os.path.dirname(os.path.dirname(os.path.dirname(os.path.abspath(__file__)))))
LARGE = os.path.join(TOP, "crates", "spanprof_large", "out", "spanprof_large")


@dataclass
class Tools:
    """Where things are."""
    recorder: str
    spanprof: list
    llvm: Version


@dataclass
class Run:
    """What one run left: its exit status, the processor time and the works done that it printed, its texts by name."""
    status: object
    nanoseconds: int
    works: int
    texts: dict
    said: str


def newest(number=""):
    """Of LLVM's versions that are there, or this one."""
    there = asked(number)
    if not there:
        sys.exit("LLVM%s: no compiler with its runtime" % (" " + number if number else ""))
    return there[0]


class Refused(Exception):
    """The compiler refused the program."""


def compile_words(tools, compiler, source, program):
    """So that each call keeps the line of its directive: without tail calls, and no two calls made one."""
    common = ["-g", "-fopenmp", "-o", program, "-x", "c++" if compiler.endswith("++") else "c", source]
    if not compiler.startswith("clang"):
        return [compiler, "-O0"] + common
    words = [compiler + "-" + tools.llvm.number, "-O1", "-fno-optimize-sibling-calls", "-fopenmp-version=51"]
    words += tools.llvm.flags()
    for option in ("simplifycfg-sink-common=false", "simplifycfg-hoist-common=false", "enable-tail-merge=0"):
        words += ["-mllvm", "-" + option]
    return words + common


def build(tools, compiler, source, program):
    done = subprocess.run(compile_words(tools, compiler, source, program), capture_output=True, text=True)
    if done.returncode:
        raise Refused(done.stderr.strip().split("\n")[0])


def environment(tools, drawn, threads, folder, is_recorded):
    out = dict(os.environ, OMP_NUM_THREADS=str(threads), OMP_MAX_ACTIVE_LEVELS="4", OMP_DYNAMIC="false",
               OMP_WAIT_POLICY="passive", KMP_TASKLOOP_MIN_TASKS="100000")
    if is_recorded:
        out.update(SPANPROF_OUT=os.path.join(folder, "out"), SPANPROF_CLOCK=drawn.clock)
        out["OMP_TOOL_LIBRARIES"] = tools.recorder
    preloaded = [tools.llvm.runtime] if drawn.is_of_gcc() and not drawn.is_on_gcc() else []
    if is_recorded and drawn.is_preloaded():
        preloaded.append(tools.recorder)
    if preloaded:
        out["LD_PRELOAD"] = ":".join(preloaded)
    return out


def read_texts(folder):
    texts = {}
    for path in glob.glob(os.path.join(folder, "out*.tasks")):
        with open(path, encoding="utf-8") as file:
            texts[os.path.basename(path)[:-6]] = file.read()
    return texts


def run(tools, drawn, threads, program, folder, is_recorded=True):
    """Runs the program once; where it is recorded, earlier recordings of the folder are removed."""
    for path in glob.glob(os.path.join(folder, "out*")) if is_recorded else ():
        shutil.rmtree(path) if os.path.isdir(path) else os.remove(path)
    try:
        done = subprocess.run([program, str(threads)], capture_output=True, text=True, timeout=SECONDS,
                              env=environment(tools, drawn, threads, folder, is_recorded))
    except subprocess.TimeoutExpired:
        return Run("no end after %d seconds" % SECONDS, 0, 0, {}, "")
    printed = [int(word) for word in done.stdout.split()] if done.returncode == 0 else [0, 0]
    said = done.stderr + (converted(folder) if is_recorded else "")
    return Run(done.returncode, printed[0], printed[1], read_texts(folder), said)


def converted(folder):
    """What is said of the run's log when it is made texts."""
    return texts(os.path.join(folder, "out"), {"SPANPROF_TIMES": "1"})[0]


def refusal(document):
    """What spanprof_large says against times; nothing where they are legal, or it is not there."""
    program = os.environ.get("SPANPROF_LARGE") or LARGE
    if not os.path.exists(program):
        return ""
    done = subprocess.run([program, "account"], input=document, capture_output=True)
    return done.stdout.decode().strip() if done.returncode else ""


def content(path):
    with open(path, "rb") as file:
        return file.read()


def account(folder, name):
    path = os.path.join(folder, name + ".timed")
    return refusal(content(path)) if os.path.exists(path) else "no timed document"


def account_of_whole(folder):
    """The same of the whole program's text, where it has times."""
    whole = os.path.join(folder, "whole")
    made_texts(os.path.join(folder, "out"), {"SPANPROF_WHOLE": "1", "SPANPROF_TIMES": "1"}, whole)
    if not os.path.exists(whole + ".times"):
        return ""
    return refusal(content(whole + ".tasks") + b"---\n" + content(whole + ".times"))
