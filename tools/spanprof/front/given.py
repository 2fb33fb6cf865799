"""Standard input, so that a program reads of it what it would read alone, and an error can be explained afterwards."""
import os
import stat
import tempfile
from dataclasses import dataclass
from typing import Any, Optional

LARGEST_INPUT = 8388608     # bytes that a command of spanprof takes; it reads one more of a longer input
PIECE = 1 << 20
INPUT = 0
UNNAMED = "standard input"


@dataclass
class Given:
    name: str                       # as messages name it
    descriptor: int                 # what the program reads
    data: Optional[bytes] = None    # what it has read; none where that is not known
    file: Any = None                # stays open until it has been read


def name_of(descriptor):
    """The path of an open file, from here where it is below."""
    if not stat.S_ISREG(os.fstat(descriptor).st_mode):
        return UNNAMED
    path, here = os.readlink("/proc/self/fd/%d" % descriptor), os.getcwd()
    return os.path.relpath(path, here) if path.startswith(os.path.join(here, "")) else path


def copied(descriptor):
    """As much as the program takes, in a file of its own. For what cannot be read it has a folder, which fails too."""
    data, name = bytearray(), name_of(descriptor)
    try:
        while piece := os.read(descriptor, min(PIECE, LARGEST_INPUT + 1 - len(data))):
            data += piece
    except OSError:
        return Given(name, os.open("/", os.O_RDONLY))
    copy = tempfile.TemporaryFile(buffering=0)
    copy.write(data)
    copy.seek(0)
    return Given(name, copy.fileno(), data, copy)


def given(is_read):
    """What a program is given on standard input. It is read only where the program reads it."""
    try:
        return copied(INPUT) if is_read else Given(name_of(INPUT), INPUT)
    except OSError:     # it is closed
        return Given(UNNAMED, INPUT)
