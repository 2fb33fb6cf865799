"""A compiler and its runtime: what they can do, and programs built with them."""
import functools
import hashlib
import itertools
import os
import pathlib
import shlex
import shutil
import subprocess

from spanprof.command import Fault
from spanprof.conformance.data import DATA
from spanprof.conformance.generate.program import C_KINDS

HARNESS = DATA / "harness"
PROBE = """#include <omp.h>
int main(void) {
    char x = 0;
#pragma omp parallel
#pragma omp single
    {
#pragma omp task depend(%s: x)
        { x++; }
    }
    return omp_get_max_threads() < 1;
}
"""
LIBRARY = """#define _GNU_SOURCE
#include <dlfcn.h>
#include <omp.h>
#include <stdio.h>
int main(void) {
    Dl_info info;
    return !dladdr((void *)omp_get_max_threads, &info) || puts(info.dli_fname) < 0;
}
"""


class NoCompiler(Fault):
    """The compiler cannot be started."""


class BuildFailed(Fault):
    """What the compiler said."""


class Toolchain:
    """`cc` with the flags for OpenMP; objects go to `folder`. Programs go to the folder `kept`, if there is one, for
    other processes to find."""

    def __init__(self, cc, folder, kept=None):
        self.numbers = itertools.count()
        self.folder, self.kept = pathlib.Path(folder), kept and pathlib.Path(kept).resolve()
        first, *flags = shlex.split(cc)
        self.cc, self.shown_flags = [first], ["-O1", "-g", "-fopenmp", *flags]
        if "clang" in self.cc[0] and not any("fopenmp-version" in flag for flag in flags):
            self.shown_flags.append("-fopenmp-version=52")
        self.flags = [*self.shown_flags, f"-I{HARNESS}"]
        self.kinds = self.kept_kinds() if self.kept else self.known_kinds()
        self.harness = [self.object_of(source) for source in sorted(HARNESS.glob("*.c"))]

    def compile(self, words):
        command = [*self.cc, *self.flags, *map(str, words)]
        try:
            done = subprocess.run(command, capture_output=True, text=True, check=False)
        except OSError as wrong:
            raise NoCompiler("--cc %s: %s" % (self.cc[0], wrong.strerror)) from wrong
        if done.returncode:
            raise BuildFailed(done.stderr.strip()[:2000])

    def object_of(self, source):
        """The object file of a file of the harness."""
        target = (self.kept or self.folder) / (self.digest(source.name) + ".o" if self.kept else f"{source.stem}.o")
        if not target.exists():
            made = self.folder / f"{source.stem}.made.o"
            self.compile(["-c", source, "-o", made])
            self.move(made, target)
        return target

    @staticmethod
    def move(made, target):
        """Puts a file where other processes may look for it, which then find the whole of it or none."""
        target.parent.mkdir(parents=True, exist_ok=True)
        copied = f"{target}.{os.getpid()}.{pathlib.Path(made).name}"
        # A copy by this process would be open for writing in whatever another thread starts just then, and a program
        # that is open for writing cannot be run.
        subprocess.run(["cp", "--", str(made), copied], check=True)
        os.rename(copied, target)

    def kept_kinds(self):
        """The kinds of depend items that the compiler knows, as another process may have found out."""
        self.kept.mkdir(parents=True, exist_ok=True)
        path = self.kept / (self.digest("kinds in C") + ".txt")
        if not path.exists():
            path.write_text(" ".join(sorted(self.known_kinds())))
        return set(path.read_text().split())

    def known_kinds(self):
        """The kinds of depend items that the compiler knows; not so `inoutset` in older ones."""
        kinds, complaint = set(), ""
        for kind in C_KINDS:
            try:
                self.build_text(PROBE % kind, "probe", ["-ldl"])
                kinds.add(kind)
            except BuildFailed as refused:
                complaint = str(refused)
        if not kinds:
            raise BuildFailed(f"{self.cc[0]} does not build a small program with OpenMP tasks: {complaint}")
        return kinds

    def build_text(self, text, name, others):
        source, program = self.folder / f"{name}.c", self.folder / name
        source.write_text(text)
        self.compile([source, *others, "-o", program])
        return program

    def build(self, text, name):
        """Compiles a generated program and links it to the harness, unless it is there already."""
        if not self.kept:
            return self.build_text(text, name, self.harness)
        target = self.kept / self.digest(text)
        if not target.exists():
            self.move(self.build_text(text, name, self.harness), target)
        return target

    def build_alone(self, text, name, suffix=".c"):
        """Compiles a program that needs no harness, as C or C++; the same text is compiled once."""
        made = (self.kept or self.folder) / f"alone-{self.digest(text)}"
        if not made.exists():
            own = f"{name}-{next(self.numbers)}"    # several threads may compile one program
            source, program = self.folder / f"{own}{suffix}", self.folder / own
            source.write_text(text)
            self.compile(["-pthread", *(["-x", "c++"] if suffix == ".cpp" else []), source, "-x", "none",
                          *(["-lstdc++"] if suffix == ".cpp" else []), "-o", program])
            self.move(program, made)
        return made

    @functools.cached_property
    def origin(self):
        """All that a program is made of beside its own text."""
        harness = "".join(path.read_text() for path in sorted(HARNESS.iterdir()))
        return f"{self.cc}\n{self.version()}\n{self.shown_flags}\n{harness}"

    def digest(self, text):
        """The name of a kept program."""
        return hashlib.sha256(f"{self.origin}\n{text}".encode()).hexdigest()[:24]

    def forget(self, programs):
        """Removes programs, where they are not to be kept."""
        if not self.kept:
            for program in programs:
                program.unlink()

    def version(self):
        done = subprocess.run([*self.cc, "--version"], capture_output=True, text=True, check=False)
        return done.stdout.split("\n")[0]

    def runtime_version(self, environment):
        """The runtime library's file and, where a package has it, that package's name and version."""
        path = self.runtime(environment)
        for words in (["dpkg-query", "--search", path], ["rpm", "--query", "--file", path]):
            if shutil.which(words[0]):
                package = subprocess.run(words, capture_output=True, text=True, check=False).stdout.partition(": ")[0]
                show = ["dpkg-query", "--show", package] if words[0] != "rpm" else words
                reported = package and subprocess.run(show, capture_output=True, text=True, check=False).stdout.split()
                return f"{' '.join(reported)} ({path})" if reported else path
        return path

    @functools.cached_property
    def library(self):
        """A program that names its runtime library."""
        return self.build_text(LIBRARY, "library", ["-ldl"])

    def runtime(self, environment):
        """The file of the runtime library that programs load."""
        try:
            done = subprocess.run([self.library], capture_output=True, text=True, env=environment, check=False)
            return str(pathlib.Path(done.stdout.strip()).resolve())
        except BuildFailed:
            return "unknown"
