"""Runs of a program without the recorder, and recordings of it, on threads that are bound."""
import os
import pathlib
import shutil
import subprocess
import sys

TOP = pathlib.Path(__file__).resolve().parents[3]
HERE = TOP / "checks" / "programs" / "predictions"
sys.path.append(str(TOP / "checks" / "llvm"))
from recording import LOADED, log_of, made_texts  # noqa: E402
from unseen import FOLDER  # noqa: E402

OPTIONS = ("-O2", "-g", "-fopenmp", "-fno-optimize-sibling-calls")
LINKED = {".c": ("-lm",), ".cpp": ("-lm", "-lstdc++")}


def source_of(one, folder=FOLDER):
    """In C or in C++."""
    return next(path for ending in LINKED for path in (HERE / folder / (one.name + ending),) if path.exists())


def compiled(words, one, version, path):
    """The path of a program, before or after its change, which is compiled. A program is known by its source's name, in
    places too."""
    flags = ["-DREWRITTEN"] if version == "after" else []
    path.parent.mkdir(parents=True, exist_ok=True)
    source = source_of(one)
    subprocess.run([*words, *OPTIONS, *flags, str(source), "-o", str(path), *LINKED[source.suffix]], check=True)
    return path


def build_clock(folder):
    """Of regions, in a folder that is made."""
    folder.mkdir(parents=True, exist_ok=True)
    subprocess.run(["gcc", "-O2", "-shared", "-fPIC", str(HERE / "region_clock.c"), "-o",
                    str(folder / "region_clock.so"), "-ldl"], check=True)


def variables(threads, **more):
    return dict(os.environ, OMP_NUM_THREADS=str(threads), OMP_PROC_BIND="close", **more)


def region_time(folder, program, threads):
    """Nanoseconds of the longest region of one run, and how often a thread had to give way to another program."""
    reported = folder / "region_time"
    process = subprocess.Popen([str(program)], stdout=subprocess.DEVNULL, env=variables(
        threads, LD_PRELOAD=str(folder / "region_clock.so"), REGION_TIME=str(reported), OMP_TOOL="disabled"))
    _, status, used = os.wait4(process.pid, 0)
    process.returncode = status
    if status:
        sys.exit("%s: status %d" % (program, status))
    return int(reported.read_text()), used.ru_nivcsw


def record(folder, program, out, threads):
    shutil.rmtree(log_of(str(folder / out)).removesuffix("/log"), ignore_errors=True)
    subprocess.run([str(program)], stdout=subprocess.DEVNULL, check=True,
                   env=variables(threads, SPANPROF_QUIET="1", SPANPROF_OUT=str(folder / out), **LOADED))


def record_all(folder, several):
    """Of programs, each with its log and threads; what they have written is on the disk before the next turn."""
    for program, out, threads in several:
        record(folder, program, out, threads)
    os.sync()


def recordings(folder):
    """The first names of those in a folder."""
    return [path.with_suffix("") for path in sorted(folder.glob("*.spanprof"))]


def convert(name):
    """The text of a recording's region, with its times."""
    made_texts(str(name), {"SPANPROF_UNIT": "ns", "SPANPROF_TIMES": "1", "SPANPROF_PARTS": "none"})
