"""Delays inside a runtime that was built with -fsanitize=thread: a library stands in for ThreadSanitizer's, and delays
threads at places of the code that a seed chooses.
"""
import pathlib
import re
import shutil
import subprocess

from spanprof.command import Fault
from spanprof.conformance.data import DATA
from spanprof.conformance.run.toolchain import BuildFailed

FOLDER = DATA / "perturb"
LIBRARY = "perturb.so"
CALLED = b"__tsan_func_entry"   # by all code that was built so
# The last word of a function's name before its parameters, and the line.
FRAME = re.compile(r"(?: \(inlined by\) )?(?:[^(<]* )?(?P<function>[^ (<]+).*? at (?P<line>\S+)")
MOMENTS = {"+": "after", "-": "before"}


class NotInstrumented(Fault):
    """A runtime that calls nothing at which it could be delayed."""


def build(folder):
    """The library, in a folder."""
    library = pathlib.Path(folder).resolve() / LIBRARY
    words = ["cc", "-O2", "-fPIC", "-shared", "-Wall", "-Wextra", *sorted(FOLDER.glob("*.c")), "-o", library]
    done = subprocess.run(list(map(str, words)), capture_output=True, text=True, check=False)
    if done.returncode:
        raise BuildFailed(done.stderr)
    return library


def check(runtime):
    """Refuses a runtime that was not built so."""
    if CALLED not in pathlib.Path(runtime).read_bytes():
        raise NotInstrumented(f"--perturb: {runtime} is not built with -fsanitize=thread")


def before_others(library, environment):
    """An environment in which a library is loaded before all others."""
    return {**environment, "LD_PRELOAD": " ".join(filter(None, [str(library), environment.get("LD_PRELOAD")]))}


def variables(perturb):
    """What the library is reported: a seed, and after a colon the places where these are chosen."""
    return {"PERTURB": perturb} if perturb else {}


def seed_of(perturb):
    return perturb.partition(":")[0]


def at_places(perturb, places):
    """The same seed with these places alone."""
    return f"{seed_of(perturb)}:{','.join(places)}"


def named(runtime, place):
    """A place in words: function, file and line, as far as the runtime's debug information goes."""
    address, moment = place[:-1], MOMENTS[place[-1]]
    unknown = f"{moment} {pathlib.Path(runtime).name}+0x{address}"
    if not shutil.which("addr2line"):
        return unknown
    words = ["addr2line", "-fipsCe", runtime, hex(int(address, 16) - 1)]   # the call ends there
    done = subprocess.run(words, capture_output=True, text=True, check=False)
    frames = [found for found in map(FRAME.match, done.stdout.splitlines()) if found and found["function"] != "??"]
    if not frames:
        return unknown
    outer, inlined = frames[-1], "".join(f", in {frame['function']}" for frame in frames[:1] if len(frames) > 1)
    return f"{moment} {outer['line']} ({outer['function']}{inlined})"
