"""libspanprof as C has it: where it is, its lists and structures, and its refusals as errors.

Lists of numbers are numpy arrays where numpy is there, and arrays of the standard library where it is not.
SPANPROF_LIBRARY names the library; without it the one that was built or installed with this file is taken: the proved
one, or else that of the reference implementation.
"""
import array
import ctypes
import functools
import os

from spanprof import MOST_THREADS
from spanprof.checksums import is_proved

KINDS = ("TooLong", "BadHeader", "BadByte", "BadWord", "BadNumber", "Unclosed", "Unopened", "TooDeep", "TooManyTasks",
         "TooManySegments", "TooManyItems", "WorkTooLarge", "OutOfMemory", "TooManyTurns", "ThreadCount", "CostCount",
         "CostsTooLarge", "WrongLength", "Moments", "NoThread", "EndsEarly", "OutOfTime", "TooSoon", "NotApart",
         "BadForm", "WrongCount", "Broken", "EndWrong", "ChainStep", "ChainSum")  # from 1 on, as the header has them
PAIRS = ("TooSoon", "Broken", "ChainStep")
OF_SEGMENT = ("NoThread", "EndsEarly", "OutOfTime", "NotApart")
OF_LIMITS = ("TooLong", "TooDeep", "TooManyTasks", "TooManySegments", "TooManyItems", "TooManyTurns")
NO_THREAD = 2 ** 32 - 1  # the thread of a segment of cost 0, which needs none
TYPES = {"Q": ctypes.c_uint64, "I": ctypes.c_uint32}
NAME = "libspanprof.so"


class NoLibrary(OSError):
    """libspanprof is not found, or is another one."""


class Place(ctypes.Structure):
    """The line of a fault of the text, or the segments of another one; 0 for what there is none of."""
    _fields_ = [("line", ctypes.c_uint64), ("segment", ctypes.c_uint32), ("other", ctypes.c_uint32)]


class Refused(ValueError):
    """Why there is no answer: its kind, the line of a fault of the text, which is 0 for anything else, and the segments
    of which a fault of times or of a certificate tells."""

    def __init__(self, kind, line=0, segments=()):
        words = " ".join([kind] + ["%d" % segment for segment in segments])
        super().__init__("line %d: %s" % (line, words) if line else words)
        self.kind, self.line, self.segments = kind, line, tuple(segments)


def structure(*names):
    """One that C fills, of numbers with these names."""
    return type("Structure", (ctypes.Structure,), {"_fields_": [(name, ctypes.c_uint64) for name in names]})


Measured = structure("segments", "work", "span")
Analysed = structure("work", "span", "path_length")     # how many segments the critical path has
Bounded = structure("least", "greatest")
Accounted = structure("busy", "delayed", "starved", "outside")
Certified = structure("segments", "ends_at")


def places():
    """Where the library may be: beside this file, as a wheel has it, proved in the repository, below the prefix that
    this file is installed on, without proofs in the repository, on the system."""
    named = os.environ.get("SPANPROF_LIBRARY")
    if named:
        return [named]
    here = os.path.dirname(os.path.abspath(__file__))
    above = os.path.dirname(os.path.dirname(here))
    folders = [here, os.path.join(above, "out", "library"), os.path.join(above, "..", "lib"),
               os.path.join(above, "reference", "target", "release"), os.path.join(above, "reference", "out")]
    found = [os.path.join(folder, NAME) for folder in folders]
    return [place for place in found if os.path.exists(place)] + [NAME]


@functools.lru_cache(maxsize=None)
def shared():
    """The library, loaded once."""
    place = places()[0]
    try:
        loaded = ctypes.CDLL(place)
    except OSError as error:
        raise NoLibrary("%s; reference/build.sh builds it, tools/library.sh (with rt) proves it, and SPANPROF_LIBRARY "
                        "names it" % error) from None
    if not hasattr(loaded, "spanprof_measure"):
        raise NoLibrary("%s is not libspanprof" % place)
    return loaded


def answering():
    """The library that answers, by its path where it is known, and whether it was proved."""
    shared()
    place = places()[0]
    return place, os.sep in place and is_proved(os.path.realpath(place))


def numpy():
    """numpy, or None where it is not there."""
    try:
        import numpy as found
    except ImportError:
        return None
    return found


def for_caller(numbers):
    """Numbers as a caller gets them."""
    found = numpy()
    return numbers if found is None else found.frombuffer(numbers, dtype="u%d" % numbers.itemsize)


def room(code, count):
    """Place for so many numbers."""
    return array.array(code, bytes(count * ctypes.sizeof(TYPES[code])))


def numbers_of(values, code="Q", kind="CostsTooLarge"):
    """Numbers from 0 on as an array of 64 or 32 bits each; where one does not fit, a refusal of this kind."""
    try:
        return array.array(code, [int(value) for value in values])
    except OverflowError:
        raise Refused(kind) from None


def passed(numbers):
    """An array as a call takes it: where it begins, and how many numbers it has."""
    kind = TYPES[numbers.typecode]
    if not numbers:
        return [(kind * 1)(), ctypes.c_size_t(0)]
    return [(kind * len(numbers)).from_buffer(numbers), ctypes.c_size_t(len(numbers))]


def bytes_of(text):
    """A text as a call takes it."""
    return text.encode("utf-8", "surrogateescape") if isinstance(text, str) else bytes(text)


def called(name, text, *words):
    """Calls the library about a text, and takes its refusals for errors."""
    place = Place()
    number = getattr(shared(), name)(ctypes.c_char_p(text), ctypes.c_size_t(len(text)), *words, ctypes.byref(place))
    refuse(number, place)


def refuse(number, place):
    """Raises what a call refuses; 0 is an answer."""
    if number == 0:
        return
    kind = KINDS[number - 1]
    if kind == "OutOfMemory":
        raise MemoryError("spanprof is out of memory")
    segments = (place.segment, place.other) if kind in PAIRS else (place.segment,) if kind in OF_SEGMENT else ()
    raise Refused(kind, place.line, segments)


def count_of(threads):
    """A number of threads as a call takes it."""
    if not 1 <= threads <= MOST_THREADS:
        raise Refused("ThreadCount")
    return ctypes.c_uint32(threads)
