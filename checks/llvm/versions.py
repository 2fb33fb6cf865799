#!/usr/bin/env python3
"""LLVM's compilers and runtimes that are there, the newest first, each version with its folder of libraries.

    versions.py [NUMBERS]     a line `NUMBER LIBRARY HEADERS` for each, or for those of a word such as 16,19

The distribution installs one libomp-N-dev at a time. `apt-get download` and `dpkg -x` unpack others: LLVM_FOLDERS names
the folders, with colons between them, that they were unpacked to. Without it those of /opt/omp-* are looked at.
"""
import glob
import os
import re
import shutil
import sys
from dataclasses import dataclass

LIBRARIES = "usr/lib/llvm-*/lib"


@dataclass
class Version:
    number: str
    library: str

    @property
    def runtime(self):
        return os.path.join(self.library, "libomp.so.5")

    @property
    def headers(self):
        """The folder of omp.h of this version's runtime."""
        found = glob.glob(os.path.join(self.library, "clang", self.number + "*", "include", "omp.h"))
        return os.path.dirname(sorted(found)[-1]) if found else ""

    def flags(self):
        """Words for its compiler, with the headers of this version's runtime."""
        include = ["-isystem" + self.headers] if self.headers else []
        return include + ["-L" + self.library, "-Wl,-rpath," + self.library]

    def compiler(self):
        return ["clang-" + self.number, "-fopenmp-version=51"] + self.flags()


def folders(variables=os.environ, unpacked=None):
    """That of the system comes first, so an installed runtime stands before an unpacked one of its version."""
    named = variables.get("LLVM_FOLDERS")
    if named is not None:
        return ["/"] + [folder for folder in named.split(":") if folder]
    return ["/"] + sorted(glob.glob("/opt/omp-*") if unpacked is None else unpacked)


def runtimes(below):
    """The folders of libraries that have a runtime to link with."""
    return [library for folder in below for library in sorted(glob.glob(os.path.join(folder, LIBRARIES)))
            if all(os.path.exists(os.path.join(library, name)) for name in ("libomp.so", "libomp.so.5"))]


def found(libraries, which=shutil.which):
    """The versions whose compiler is there too, the newest first."""
    out = {}
    for library in libraries:
        number = re.search(r"llvm-(\d+)/lib$", library)[1]
        if which("clang-" + number) and which("clang++-" + number):
            out.setdefault(number, Version(number, library))
    return sorted(out.values(), key=lambda one: -int(one.number))


def asked(words, there=None):
    """Those of the numbers in a word such as `16,19` that are there, in its order; without one all."""
    there = found(runtimes(folders())) if there is None else there
    if not words:
        return there
    return [one for number in words.split(",") for one in there if one.number == number]


def main(words):
    versions = asked(words[0] if words else "")
    for one in versions:
        print(one.number, one.library, one.headers)
    return 0 if versions else 1


if __name__ == "__main__":
    sys.exit(main(sys.argv[1:]))
