"""Which tool wrote a file."""
import re
import zlib

from spanprof.command import DAMAGE, LONGEST, Fault, naming
from spanprof.imports import chrome, ninja, starpu


# Of each what reads the file, and what is named behind it or a process of it; and the first bytes.
FORMATS = {
    "ninja": (ninja.read, rb"# ninja log v"),
    "chrome": (chrome.read, rb"\s*[\[{]|\x1f\x8b"),
    "starpu": (starpu.read, rb"\s*(Name|Model|JobId|Control): ")}
HEAD = 1000     # bytes


def format_of(path):
    """By what it begins with."""
    with naming(path), open(path, "rb") as file:
        first = file.read(HEAD)
    found = next((name for name, (_, begin) in FORMATS.items() if re.match(begin, first)), None)
    if not found:
        raise Fault("%s: neither a log of ninja, nor a trace in Chrome's JSON, nor StarPU's tasks.rec; "
                    "--from names its format" % path)
    return found


def read(name, path, more=None):
    """What the file tells, whose format has this name."""
    with naming(path):
        try:
            return FORMATS[name][0](path, more)
        except EOFError as wrong:
            raise Fault("%s: it is cut off" % path) from wrong
        except (*DAMAGE, zlib.error) as wrong:
            raise Fault("%s is damaged: %s" % (path, str(wrong)[:LONGEST])) from wrong
