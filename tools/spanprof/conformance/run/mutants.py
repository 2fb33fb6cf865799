"""Runtimes with one broken rule: libraries that are loaded before the runtime and wrap its entry points."""
import pathlib
import subprocess

from spanprof.conformance.data import DATA
from spanprof.conformance.run.toolchain import BuildFailed

FOLDER = DATA / "mutants"

# What each mutant breaks.
MEANINGS = {
    "drop-depend": "every 3rd task with depend items loses them",
    "ignore-in": "`in` items are left out",
    "out-as-in": "`out` and `inout` items count as `in`",
    "inoutset-as-in": "`inoutset` items count as `in`",
    "inoutset-ignored": "`inoutset` items are left out",
    "first-item-only": "of several depend items only the first counts",
    "undeferred-ignores-depend": "an undeferred task does not wait for its dependences",
    "undeferred-deferred": "undeferred tasks are deferred",
    "final-ignored": "the children of final tasks are deferred",
    "taskwait-returns": "taskwait returns at once",
    "second-taskwait-returns": "every 2nd taskwait returns at once",
    "group-returns": "the end of a group does not wait",
    "group-children-only": "the end of a group waits for children and not for grandchildren",
    "inner-group-returns": "the end of a group inside another one does not wait",
    "taskloop-returns": "the end of a taskloop does not wait",
    "run-twice": "every 41st deferred task runs twice",
    "lost-task": "every 41st deferred task never runs",
    "hang": "the 9th taskwait never returns",
    "crash": "the 9th taskwait aborts",
}
# Mutants that the source for a runtime does not have: its entry points do not show what they would have to change.
LACKING = {
    "gomp": {"inoutset-as-in", "inoutset-ignored"},
    "kmp": {"undeferred-deferred", "taskloop-returns", "run-twice"},
}


def mutants_of(family):
    """The mutants of a runtime by name, and what each breaks."""
    return {name: meaning for name, meaning in MEANINGS.items() if name not in LACKING[family]}


def family_of(runtime, usual="kmp"):
    """Whose runtime a file is, by its name; the usual one's where that does not tell."""
    name = pathlib.Path(runtime).name
    return "gomp" if "gomp" in name else "kmp" if "omp" in name else usual


def build_mutants(family, folder):
    """The library with all mutants for a runtime."""
    library = pathlib.Path(folder) / f"mutants_{family}.so"
    words = ["cc", "-O1", "-fPIC", "-shared", "-Wall", "-Wextra", FOLDER / f"{family}.c", "-o", library, "-ldl"]
    done = subprocess.run(list(map(str, words)), capture_output=True, text=True, check=False)
    if done.returncode:
        raise BuildFailed(done.stderr)
    return library


def mutated(environment, library, name):
    """An environment in which the runtime of a program is a mutant."""
    preload = " ".join(filter(None, (str(library), environment.get("LD_PRELOAD"))))
    return {**environment, "LD_PRELOAD": preload, "MUTANT": name}
