"""What the commands share: faults in words for people, options, what is shown and how much is done, files that are
written, the end of a process, and the version with the commit and the logic with which spanprof was proved.
"""
import argparse
import atexit
import errno
import os
import re
import signal
import subprocess
import sys
import time
from contextlib import contextmanager

# The statuses are those of `env` and `timeout`, for spanprof-record.
OWN_FAULT, NOT_EXECUTABLE, NO_PROGRAM = 125, 126, 127
LONGEST = 100       # of what is wrong in a file
DAMAGE = (ValueError, KeyError, TypeError, IndexError, AttributeError, OverflowError, RecursionError)
INTERRUPTED = 130
PATIENCE = 2    # seconds
MOST_COLUMNS = 110   # columns
CLEARED = "\r\033[K"
# The file VERSION has the version and the logic; where the tools are installed it stands beside this package, and has
# the commit too.
HERE = os.path.dirname(os.path.abspath(__file__))
INSTALLED, IN_REPOSITORY = os.path.join(HERE, "..", "VERSION"), os.path.join(HERE, "..", "..", "VERSION")


class Fault(Exception):
    """Why a command cannot do what it was asked; its words are all that is reported."""

    def __init__(self, words, status=OWN_FAULT):
        super().__init__(words)
        self.status = status


@contextmanager
def reading(path):
    """A file that has another form ends in a fault."""
    try:
        yield
    except DAMAGE as wrong:
        raise Fault("%s is damaged: %s" % (path, str(wrong)[:LONGEST])) from wrong


def count(least, most):
    """A type of options: whole numbers in these bounds."""
    def read(word):
        if not re.fullmatch(r"[0-9]{1,16}", word) or not least <= int(word) <= most:
            raise argparse.ArgumentTypeError("%r is not a whole number from %d to %d" % (word, least, most))
        return int(word)
    return read


def leave(stream):
    """Writes what is still to be written there. What it does not take goes nowhere: it would fail again at the end."""
    try:
        stream.flush()
    except OSError:
        os.dup2(os.open(os.devnull, os.O_WRONLY), stream.fileno())


def show(lines, stream=None):
    """On standard error, where no other is named. That it has no room changes no exit status."""
    stream = stream or sys.stderr
    try:
        print(*lines, sep="\n", end="\n" if lines else "", file=stream, flush=True)
    except OSError:
        leave(stream)


class Console:
    """What a command tells on standard error, in its name."""

    def __init__(self, name):
        self.name = name

    def say(self, words):
        show(["%s: %s" % (self.name, words)])

    def tell(self, words):
        """Progress, where somebody looks on."""
        if sys.stderr.isatty():
            self.say(words)


def percent(word):
    """`5%` or `5`."""
    if not re.fullmatch(r"[0-9]{1,4}(\.[0-9]+)?%?", word):
        raise argparse.ArgumentTypeError("%r is not a percentage, such as 5%%" % word)
    return float(word.rstrip("%"))


def unit(word):
    """`ns`, `us`, `ms`, or a number of nanoseconds."""
    number = int(word) if re.fullmatch(r"[0-9]{1,10}", word) else 0
    if word not in ("ns", "us", "ms") and not 1 <= number <= 1000000000:
        raise argparse.ArgumentTypeError("a unit is ns, us, ms, or nanoseconds up to 1000000000")
    return word


def check_files(text, output=None, what="changed text"):
    """Whether the text is there, and is not what would be written."""
    if not os.path.exists(text):
        raise Fault("%s: no such file" % (text or "''"))
    if os.path.isfile(os.path.join(text, "head")):
        raise Fault("%s: the log of a recording; spanprof-convert makes its text" % text)
    if os.path.isdir(text):
        raise Fault("%s: not a recording, which is a folder NAME.spanprof" % text)
    if not os.path.isfile(text):
        raise Fault("%s: write the text to a file first, as it is read more than once" % text)
    if output and os.path.exists(output) and os.path.samefile(text, output):
        raise Fault("%s: the %s would be written over the text" % (output, what))


@contextmanager
def naming(path):
    """Has the words on what goes wrong name this file."""
    try:
        yield
    except OSError as wrong:
        raise Fault("%s: %s" % (path, wrong.strerror or wrong)) from wrong


@contextmanager
def writing(path, mode="w", **how):
    """A file that gets its name once it is whole; where it cannot be written the one of that name stays."""
    how = how if "b" in mode else {"encoding": "utf-8", **how}
    final = os.path.realpath(path)
    with naming(path):
        if path == "-" or os.path.exists(final) and not os.path.isfile(final):
            there = {"file": sys.stdout.fileno(), "closefd": False} if path == "-" else {"file": path}
            with open(mode=mode, **there, **how) as file:   # a device or a pipe, which nothing replaces
                yield file
            return
        if os.path.exists(final) and not os.access(final, os.W_OK):
            raise PermissionError(errno.EACCES, os.strerror(errno.EACCES))
        part = "%s.part%d" % (final, os.getpid())
        try:
            with open(part, mode, **how) as file:
                yield file
            os.replace(part, final)
        finally:
            if os.path.exists(part):
                os.remove(part)


def end_by(number, _):
    """Ends this process by the signal, once the files that live as long as it are gone."""
    atexit._run_exitfuncs()
    signal.signal(number, signal.SIG_DFL)
    os.kill(os.getpid(), number)


def end_without_files():
    """Of signals that end this process, as `| head` does; one that is ignored, as under nohup, stays so."""
    signal.signal(signal.SIGPIPE, end_by)
    for number in (signal.SIGTERM, signal.SIGHUP):
        if signal.getsignal(number) == signal.SIG_DFL:
            signal.signal(number, end_by)


def words_of(wrong):
    """What the system says, and of which file. Without a name, what has no room is standard output."""
    name = wrong.filename or ("standard output" if wrong.errno == errno.ENOSPC else "")
    return "%s: %s" % (name, wrong.strerror) if name else str(wrong)


def open_closed_streams():
    """One that is closed takes all words, so that they go into no file that is opened in its place."""
    for name in ("stdout", "stderr"):
        if getattr(sys, name) is None:
            setattr(sys, name, open(os.devnull, "w", encoding="utf-8"))


def answer_all(answer, words):
    """Answers, and prints all of it: here a device without room is still reported."""
    try:
        answer(*words)
    except SystemExit:  # after --help, or wrong words
        show([])
        sys.stdout.flush()
        raise
    sys.stdout.flush()


def end_with(console, answer, *words, status=1):
    """Answers, and ends the process with this status and a word where that fails."""
    end_without_files()
    open_closed_streams()
    try:
        answer_all(answer, words)
        return
    except Fault as fault:
        console.say(str(fault))
    except OSError as wrong:
        leave(sys.stdout)
        console.say(words_of(wrong))
    except KeyboardInterrupt:
        sys.exit(INTERRUPTED)
    sys.exit(status)


class Progress:
    """What is being done, and the share of all of it that is, where that is known."""

    def __init__(self, name, stream=None, clock=time.monotonic):
        self.name, self.stream, self.clock = name, stream or sys.stderr, clock
        self.begun, self.words, self.share, self.is_shown = clock(), "", None, False

    def __call__(self, words):
        self.words = words
        self.show()

    def at(self, share):
        self.share = share
        self.show()

    def show(self):
        if self.stream.isatty() and self.clock() - self.begun >= PATIENCE:
            done = "" if self.share is None else "%d %% done" % (100 * self.share)
            self.write(CLEARED + ": ".join(filter(None, (self.name, done, self.words)))[:MOST_COLUMNS])
            self.is_shown = True

    def end(self):
        if self.is_shown:
            self.write(CLEARED)
        self.is_shown = False

    def write(self, words):
        try:
            print(words, end="", file=self.stream, flush=True)
        except OSError:
            pass    # the terminal has gone


def each(things, progress):
    """The things, one after the other; the share of them that is done is shown."""
    things = list(things)
    for number, thing in enumerate(things):
        progress.at(number / len(things))
        yield thing
    progress.end()


def bytes_read(process):
    """What a process has read, where the system tells."""
    try:
        with open("/proc/%d/io" % process.pid, encoding="ascii") as file:
            return int(file.readline().split()[1])
    except (OSError, IndexError, ValueError):
        return 0


def commit_of(folder):
    """The commit of a clone, with a `+` where files differ from it; empty where there is no clone."""
    words = ["git", "-C", folder, "describe", "--always", "--exclude", "*", "--dirty=+"]
    try:
        done = subprocess.run(words, capture_output=True, text=True, check=False)
    except OSError:
        return ""
    return done.stdout.strip() if done.returncode == 0 else ""


def read_version(path):
    with open(path, encoding="utf-8") as file:
        return file.read().split("\n")[:-1]


def version_lines():
    """The version, `logic ..` and `commit ..`."""
    if os.path.exists(INSTALLED):
        return read_version(INSTALLED)
    commit = commit_of(os.path.join(HERE, ".."))
    return read_version(IN_REPOSITORY) + (["commit " + commit] if commit else [])


def version_of(name):
    version, *rest = version_lines()
    return "%s %s (%s)" % (name, version, ", ".join(rest))


class Version(argparse.Action):
    """The option --version, which asks for the commit only where it is given."""

    def __init__(self, option_strings, dest, **how):
        super().__init__(option_strings, dest, nargs=0, help="print the version, the logic and the commit")

    def __call__(self, parser, namespace, values, option_string=None):
        print(version_of(parser.prog))
        parser.exit()
