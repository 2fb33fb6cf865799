"""Runs the proved program as it is: its words, bytes and status. What an error means goes to standard error."""
import os
import signal
import subprocess
import sys

from spanprof.command import Fault, show
from spanprof.folders import other_places_of, places_of, words_for
from spanprof.front.given import given
from spanprof.front.routes import are_right

FROM_TERMINAL = "spanprof: reading a program text from the terminal, up to Ctrl-D; `spanprof --help` lists the commands"


def found(program):
    words = words_for(program, places_of(program) + other_places_of(program))
    if not words:
        raise Fault("%s is neither on the PATH nor built; ./demo builds it" % program)
    return words


def not_started(words, wrong):
    return Fault("%s: %s; README.md says how to build it" % (words[0], wrong.strerror))


def ended(status):
    """The exit status; after a signal this process ends by the same one."""
    if status < 0:
        signal.signal(-status, signal.SIG_DFL)
        os.kill(os.getpid(), -status)
    return status


def run(words, descriptor):
    """The program's status; it has this input, and standard output is its own. It takes an interrupt itself."""
    before = signal.signal(signal.SIGINT, lambda *_: None)
    try:
        return subprocess.run(words, stdin=descriptor, check=False).returncode
    except OSError as wrong:
        raise not_started(words, wrong) from wrong
    finally:
        signal.signal(signal.SIGINT, before)


def explanation(program, words, taken):
    """What the error means that the program has printed; it is asked again, since that has gone to standard output."""
    from spanprof.front.meaning import meaning      # only an error needs what explains it

    def ask(more, text):
        signal.signal(signal.SIGPIPE, signal.SIG_IGN)   # it may read nothing
        done = subprocess.run(program + list(more), input=text.encode(), stdout=subprocess.PIPE, check=False)
        return done.stdout.decode("utf-8", "replace").strip()

    if taken.data is None and are_right(words):
        return ["spanprof: standard input cannot be read"]
    text = (taken.data or b"").decode("utf-8", "replace")
    return meaning(taken.name, words, text, ask(words, text), ask)


def answer(words):
    """Of one of the ten commands, or of wrong words; the status."""
    if sys.stdin and sys.stdin.isatty() and sys.stderr.isatty() and are_right(words):
        show([FROM_TERMINAL])
    program, taken = found("spanprof"), given(are_right(words))
    status = run(program + words, taken.descriptor)
    if status > 0:
        show(explanation(program, words, taken))
    return ended(status)


def answer_large(words):
    """By spanprof_large, which takes the place of this process."""
    program = found("spanprof_large")
    try:
        os.execvp(program[0], program + words)
    except OSError as wrong:
        raise not_started(program, wrong) from wrong
