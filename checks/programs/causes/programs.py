"""The programs: which kind of cause each has, and in which lines."""
import os
import re
import subprocess
import sys
from typing import NamedTuple, Tuple

TOP = os.path.dirname(os.path.dirname(os.path.dirname(os.path.dirname(os.path.abspath(__file__)))))
sys.path.insert(0, os.path.join(TOP, "tools"))
from spanprof.diagnosis.causes import TABLE     # noqa: E402

KINDS = tuple(cause.kind for cause in TABLE)
WITHOUT_A_PLACE = tuple(cause.kind for cause in TABLE if not cause.is_of_program)
MARK = re.compile(r"// <- cause$")
FIXED = ".fixed"


class Program(NamedTuple):
    """`lines` are those that a diagnosis may name; where there are none it may name any place or none."""
    name: str
    kind: str
    source: str
    lines: Tuple[int, ...]


def kind_of(name):
    """`lock_object` is of the kind `lock`."""
    return next((kind for kind in KINDS if name == kind or name.startswith(kind + "_")), None)


def marked(text):
    return tuple(number for number, line in enumerate(text.splitlines(), 1) if MARK.search(line))


def program(path):
    name = os.path.splitext(os.path.basename(path))[0]
    with open(path, encoding="utf-8") as file:
        return Program(name, kind_of(name), path, marked(file.read()))


def programs(folder, kinds=()):
    """Of these kinds or names, or all, in the order of the kinds."""
    found = [program(os.path.join(folder, name)) for name in sorted(os.listdir(folder))
             if name.endswith((".c", ".cpp"))]
    chosen = [one for one in found if not kinds or one.kind in kinds or one.name in kinds]
    return sorted(chosen, key=lambda one: KINDS.index(one.kind))


def for_cpp(compiler):
    """`clang++-19` of `clang-19`, `g++` of `gcc`."""
    return compiler.replace("clang", "clang++").replace("gcc", "g++")


def build(one, compiler, flags, folder):
    """FOLDER/NAME and the repaired FOLDER/NAME.fixed."""
    for ending, options in (("", []), (FIXED, ["-DFIXED"])):
        words = [for_cpp(compiler) if one.source.endswith(".cpp") else compiler, "-O2", "-g", "-fopenmp", *options]
        subprocess.run([*words, one.source, "-o", os.path.join(folder, one.name + ending), *flags, "-lm"], check=True)
