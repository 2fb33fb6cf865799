"""spanprof: the tools and the proved programs under one name."""
import os
import signal
import sys

from spanprof.command import NO_PROGRAM, Console, end_with, show, version_of
from spanprof.front.routes import HELP, OTHER_NAMES, PROGRAM, TOOL, TOOLS, VERSION, main_of, route

CONSOLE = Console("spanprof")
PREFIX = "spanprof-"
WRONG = 2


def begin_in_utf8():
    """Under a locale of another encoding this process begins again, since texts, sources and most names are UTF-8."""
    if sys.executable and sys.getfilesystemencoding() != "utf-8" and not sys.flags.utf8_mode:
        os.execv(sys.executable, [sys.executable, "-X", "utf8"] + sys.argv)


def handle_interrupts():
    """Once all is imported: until then Ctrl-C ends the process at once."""
    if signal.getsignal(signal.SIGINT) == signal.SIG_DFL:
        signal.signal(signal.SIGINT, signal.default_int_handler)


def run_tool(words):
    """A tool ends the process itself, or has a status."""
    sys.argv = [PREFIX + words[0]] + words[1:]
    tool = main_of(words[0])
    handle_interrupts()
    return tool(words[1:])


def help_with(words):
    """The help of a command, or of all of them."""
    from spanprof.front.help_texts import GENERAL, help_of      # only help needs them
    name = words[0] if words else ""
    if not name:
        print(GENERAL, end="")
    elif help_of(name):
        print(help_of(name), end="")
    elif name in TOOLS or name in OTHER_NAMES:
        return run_tool([OTHER_NAMES.get(name, name), "--help"])
    else:
        show(["spanprof: there is no command `%s`; `spanprof --help` lists them" % name])
        return WRONG
    return 0


def answer(to):
    if to.to == HELP:
        return help_with(to.words)
    if to.to == VERSION:
        print(version_of("spanprof"))
        return 0
    from spanprof.front import programs     # only these need what finds and explains
    return programs.answer(to.words) if to.to == PROGRAM else programs.answer_large(to.words)


def main(name, words):
    """The words behind a name: that of this script, or a link `spanprof-COMMAND` to it."""
    begin_in_utf8()
    if name.startswith(PREFIX):
        sys.exit(run_tool([name[len(PREFIX):]] + words))
    to = route(words, os.path.exists)
    if to.to == TOOL:
        sys.exit(run_tool(to.words))
    handle_interrupts()
    statuses = []
    end_with(CONSOLE, lambda: statuses.append(answer(to)), status=NO_PROGRAM)
    sys.exit(statuses[0])
