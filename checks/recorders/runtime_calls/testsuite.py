"""The programs of libgomp's own tests, those that have tasks or all, from the distribution's package gcc-12-source."""
import glob
import os
import re
import subprocess
from dataclasses import dataclass

ARCHIVES = "/usr/src/gcc-*/gcc-*.tar.xz"
FOLDERS = ("libgomp.c", "libgomp.c++", "libgomp.c-c++-common", "libgomp.fortran")
LANGUAGES = {".c": "c", ".C": "c++", ".f90": "fortran", ".F90": "fortran", ".f": "fortran", ".f95": "fortran"}
TASKS = re.compile(r"^\s*(?:#\s*pragma\s+omp|[!c]\$omp)\b.*\btask", re.M | re.I)
RUN = re.compile(r"dg-do\s+(\w+)")
OPTIONS = re.compile(r"""dg-(?:additional-)?options\s+"([^"]*)"\s*(?:\{([^{}]*)\})?""")


@dataclass(frozen=True)
class Program:
    name: str
    path: str
    options: tuple
    language: str


def archive():
    """The newest of those that are installed, or None."""
    return max(glob.glob(ARCHIVES), default=None)


def unpack(tar, folder):
    top = os.path.basename(tar).replace("-dfsg", "").replace(".tar.xz", "")
    names = ["%s/libgomp/testsuite/%s" % (top, it) for it in FOLDERS]
    subprocess.run(["tar", "-xf", tar, "-C", folder] + names, check=True)
    return os.path.join(folder, top, "libgomp", "testsuite")


def options(source):
    """Of the test's head those for every target."""
    return tuple(word for words, target in OPTIONS.findall(source) if not target for word in words.split()
                 if word != "-fopenmp")


def is_run(source):
    """Whether the test is run, and not compiled alone; libgomp's are run where nothing else is said."""
    found = RUN.search(source)
    return not found or found.group(1) == "run"


def programs(folder, without_tasks=False):
    found = []
    for path in sorted(glob.glob(os.path.join(folder, "**", "*"), recursive=True)):
        language = LANGUAGES.get(os.path.splitext(path)[1])
        if not language or os.path.isdir(path):
            continue
        with open(path, encoding="latin-1") as file:
            source = file.read()
        if (without_tasks or TASKS.search(source)) and is_run(source):
            name = os.path.relpath(path, folder).replace("libgomp.", "").replace("/", ":")
            found.append(Program(name, path, options(source), language))
    return found
