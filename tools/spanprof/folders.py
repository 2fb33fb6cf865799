"""Where programs and folders are: in the repository, or where `make install` has put them."""
import os
import shlex
import shutil

from spanprof.command import Fault

TOOLS = os.path.dirname(os.path.dirname(os.path.abspath(__file__)))     # installed it is PREFIX/share/spanprof
TOP = os.path.dirname(TOOLS)
PREFIX = os.path.dirname(TOP)
INSTALLED_BUILDS = os.path.join(PREFIX, "lib", "spanprof")
# Scripts, or links, that start the programs of this installation.
FRONTS = os.path.join(TOOLS, "bin", "spanprof"), *(os.path.join(PREFIX, "bin", program)
                                                   for program in ("spanprof", "spanprof_large"))
REFERENCE = os.path.join(TOP, "reference")


def places_of(program):
    """Where a proved program is: in the repository, or where it is installed."""
    return os.path.join(TOP, "crates", program, "out", program), os.path.join(PREFIX, "libexec", "spanprof", program)


def other_places_of(program):
    """Where it is without proofs: the reference implementation, built by cargo or build.sh, or the unproved build."""
    folders = ("reference", "target", "release"), ("reference", "out"), ("out", "unproved")
    return tuple(os.path.join(TOP, *folder, program) for folder in folders)


def shown_program(path):
    """A program as messages name it."""
    is_reference = os.path.realpath(path).startswith(os.path.join(os.path.realpath(REFERENCE), ""))
    return "the reference implementation" if is_reference else os.path.basename(path)


def words_in(name):
    """The words of a variable."""
    try:
        return shlex.split(os.environ.get(name, ""))
    except ValueError as wrong:
        raise Fault("%s=%s: %s" % (name, os.environ[name], str(wrong).lower())) from wrong


def found_at(program, places):
    """The one on the PATH, or at one of these places; else none. A script of the same name there is passed over, since
    it asks that of this installation."""
    found = shutil.which(program)
    if not found or os.path.realpath(found) in map(os.path.realpath, FRONTS):
        found = next((path for path in places if os.access(path, os.X_OK)), None)
    return [found] if found else []


def words_for(program, places):
    """The words that start it: those of its variable, or where it is found; else none."""
    return words_in(program.upper()) or found_at(program, places)


def builds_in(folder):
    """Where make leaves what it builds in a folder of the tools, and where that is installed."""
    return [os.path.join(TOOLS, folder), INSTALLED_BUILDS]
