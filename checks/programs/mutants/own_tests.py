#!/usr/bin/env python3
"""Runs libgomp's own tests that have tasks on each mutant of it: own_tests.py FOLDER OUT.json

FOLDER is what build.py made. OUT.json gets for each mutant the tests that failed; tests that fail on the runtime as it
is are left out.
"""
import argparse
import concurrent.futures
import json
import os
import pathlib
import shutil
import subprocess
import sys
import tempfile
import time
from dataclasses import dataclass

sys.path.insert(0, str(pathlib.Path(__file__).resolve().parents[2] / "recorders" / "runtime_calls"))
import testsuite

COMPILERS = {"c": "gcc", "c++": "g++", "fortran": "gfortran"}
SECONDS = 20  # until a test counts as failed on the runtime as it is; the slowest takes two alone
LEAST, TIMES_AS_LONG = 5, 10  # on a mutant: so many seconds at least, or so many times as long
PATIENCE = 4  # times as long, where a test has not ended in its time


def options_of(words=None):
    parser = argparse.ArgumentParser(description=__doc__.split("\n", maxsplit=1)[0])
    add = parser.add_argument
    add("folder", type=pathlib.Path, help="the mutants' libraries")
    add("out", type=pathlib.Path, help="what failed")
    add("--jobs", type=int, default=2, help="tests that run side by side (2)")
    add("--only", type=lambda words: words.split(","), default=[], help="these mutants alone")
    add("--enough", type=int, default=0, help="go on to the next mutant once so many tests have failed (0: run all)")
    return parser.parse_args(words)


def compiled(program, folder):
    """The test as a program, or None where the compiler is missing or refuses it."""
    target, compiler = folder / program.name.replace("/", "_").replace(":", "_"), COMPILERS[program.language]
    words = [compiler, "-O2", "-w", "-fopenmp", *program.options, program.path, "-o", target, "-lm"]
    if not shutil.which(compiler):
        return None
    done = subprocess.run(list(map(str, words)), cwd=folder, capture_output=True, check=False)
    return target if done.returncode == 0 else None


@dataclass(frozen=True)
class Test:
    """A test as a program, and after how many seconds it counts as failed."""
    program: pathlib.Path
    seconds: float = SECONDS

    @property
    def name(self):
        return self.program.name


def status_of(test, library, seconds):
    """The status with which a test ends on a library, or None where it takes longer."""
    environment = {**os.environ, "LD_PRELOAD": str(library)}
    try:
        done = subprocess.run([test.program], env=environment, capture_output=True, timeout=seconds, check=False)
    except subprocess.TimeoutExpired:
        return None
    return done.returncode


def passes(test, library):
    """Whether a test ends with status 0 in time on a library. What may only have been slow gets more time once."""
    status = status_of(test, library, test.seconds)
    return (status_of(test, library, PATIENCE * test.seconds) if status is None else status) == 0


def timed(test, library):
    """A test that passes on a library, with the time that it gets on others; or None."""
    begun = time.monotonic()
    if not passes(test, library):
        return None
    return Test(test.program, min(SECONDS, max(LEAST, TIMES_AS_LONG * (time.monotonic() - begun))))


def failed(tests, library, jobs, enough=0):
    """The names of the tests that fail on a library: of all, or of the first until enough have failed."""
    wrong = []
    with concurrent.futures.ThreadPoolExecutor(jobs) as pool:
        for begin in range(0, len(tests), jobs):
            if enough and len(wrong) >= enough:
                break
            some = tests[begin:begin + jobs]
            fine = pool.map(lambda test: passes(test, library), some)
            wrong += [test.name for test, is_fine in zip(some, fine) if not is_fine]
    return sorted(wrong)


def build_tests(folder, jobs):
    """The tests that the compilers take, as programs in a folder."""
    sources = testsuite.programs(testsuite.unpack(testsuite.archive(), str(folder)))
    with concurrent.futures.ThreadPoolExecutor(jobs) as pool:
        return [Test(program) for program in pool.map(lambda source: compiled(source, folder), sources) if program]


def usable(tests, library, jobs):
    """The tests that pass on the runtime as it is, those that take the least time first."""
    with concurrent.futures.ThreadPoolExecutor(jobs) as pool:
        found = [test for test in pool.map(lambda test: timed(test, library), tests) if test]
    return sorted(found, key=lambda test: test.seconds)


def libraries(folder, only):
    """Pairs of a name and a library, the runtime as it is first."""
    found = {path.stem: path.resolve() for path in sorted(folder.glob("*.so"))}
    return [(name, found[name]) for name in ["none", *(n for n in found if n != "none" and (n in only or not only))]]


def main():
    options = options_of()
    with tempfile.TemporaryDirectory(prefix="own-tests-") as folder:
        (_, plain), *mutants = libraries(options.folder, options.only)
        built, seen = build_tests(pathlib.Path(folder), options.jobs), {}
        tests = usable(built, plain, options.jobs)
        print(f"{len(tests)} tests; {len(built) - len(tests)} left out, which fail on the runtime as it is", flush=True)
        for name, library in mutants:
            seen[name] = wrong = failed(tests, library, options.jobs, options.enough)
            print(f"{name}: {len(wrong)} failed", flush=True)
            options.out.write_text(json.dumps(seen, indent=1) + "\n")
    return 0


if __name__ == "__main__":
    sys.exit(main())
