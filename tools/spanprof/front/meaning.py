"""What an error line of one of the ten commands means, and what helps."""
import difflib
import os

from spanprof.front.given import UNNAMED
from spanprof.front.help_texts import USAGES
from spanprof.front.routes import COMMANDS, LARGE_COMMANDS, OTHER_NAMES, TOOLS
from spanprof.recording import TEXT
from spanprof.refusal import explained

WRONG_WORDS = "error: wrong words"
LIMITS = ("TooLong", "TooDeep", "TooManyTasks", "TooManySegments", "TooManyTurns")
CLOSEST = 0.6
KINDS = {   # by the limits of the ten commands
    "TooLong": "a text has at most 4,194,304 bytes, and 1,048,576 outside blanks and comments",
    "TooDeep": "at most 64 blocks are open at a time",
    "TooManyTasks": "a text has at most 4,096 tasks",
    "TooManySegments": "a text has at most 16,384 segments",
    "TooManyItems": "a task has at most 32 depend items, and 65,536 in a text of any size",
    "TooManyTurns": "all loops together have at most 65,536 turns"}
TOO_LONG = "standard input has at most 8,388,608 bytes"


def of_words(words):
    """What is wrong with the arguments."""
    name = words[0]
    if name in USAGES:
        there = (path for word in words[1:] for path in (os.path.join(word, TEXT), word))
        text = next(filter(os.path.exists, there), "FILE")
        return "spanprof: wrong arguments of `%s`; usage: %s" % (name, USAGES[name][0].replace("FILE", text))
    every = COMMANDS + LARGE_COMMANDS + tuple(TOOLS) + tuple(OTHER_NAMES) + ("help",)
    alike = difflib.get_close_matches(name, every, n=1, cutoff=CLOSEST)
    return "spanprof: there is no command `%s`%s; `spanprof --help` lists them" % (
        name, " (did you mean `%s`?)" % alike[0] if alike else "")


def of_size(name, words):
    """Which command takes a text that is too large for this one."""
    if words[0] == "run":
        return "spanprof: no command runs a larger program; `spanprof_large graph` prints its graph"
    source = " < %s" % name if name != UNNAMED else ""
    return "spanprof: `spanprof_large %s%s` takes texts of any size" % (" ".join(words), source)


def meaning(name, words, text, line, ask):
    """Lines on the error line that these words and this text have; `ask(words, text)` is what the program prints."""
    if line == WRONG_WORDS:
        return [of_words(words)]
    if not line.startswith("error: "):
        return ["spanprof: standard output cannot be written"]
    words = words or ["span"]
    is_long = line == "error: input too long"
    reported = "%s: %s" % (name, TOO_LONG) if is_long else explained(name, words, text, line, ask, KINDS)
    lines = reported.split("\n")
    if is_long or line.rpartition(" ")[2] in LIMITS:
        lines.append(of_size(name, words))
    return [reported for reported in lines if reported]
