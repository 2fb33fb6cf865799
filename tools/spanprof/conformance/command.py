"""Tests a runtime for OpenMP tasks: spanprof, whose answers are proved, says whether what it did was legal.

    spanprof-conformance run --cc clang-16 --report report.md
    spanprof-conformance mutants --cc gcc

tools/conformance/README.md has all commands and what they mean.
"""
import sys
import tempfile

from spanprof.command import Fault, leave, open_closed_streams, words_of
from spanprof.conformance.commands import COMMANDS, CONSOLE
from spanprof.conformance.options import parse


def parsed(words):
    """The options; what --help prints is out."""
    try:
        return parse(COMMANDS, words)
    finally:
        sys.stdout.flush()


def tried(words):
    """The status of a command, of which all is printed."""
    options = parsed(words)
    with tempfile.TemporaryDirectory(prefix="conformance-") as folder:
        status = options.call(options, folder)
        sys.stdout.flush()
        return status


def main(words):
    open_closed_streams()
    try:
        return tried(words)
    except BrokenPipeError:
        leave(sys.stdout)   # `| head` has what it wants
    except Fault as fault:
        CONSOLE.say(str(fault))
    except OSError as wrong:
        leave(sys.stdout)
        CONSOLE.say(words_of(wrong))
    except KeyboardInterrupt:
        return 130
    return 2
