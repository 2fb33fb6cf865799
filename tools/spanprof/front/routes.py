"""Which program answers the words behind `spanprof`."""
import importlib
import re
from dataclasses import dataclass
from typing import List

PROGRAM, LARGE, TOOL, HELP, VERSION = "program", "large", "tool", "help", "version"
COMMANDS = ("span", "show", "slack", "greedy", "curve", "whatif", "certify", "check", "run", "replay")
LARGE_COMMANDS = ("bounds", "account", "graph", "places", "relaxation")   # that spanprof_large has alone
TOOLS = {
    "record": "spanprof.record.command", "convert": "spanprof.record.convert_command",
    "report": "spanprof.report.command", "path": "spanprof.path.command", "whatif": "spanprof.whatif.command",
    "predict": "spanprof.predict.command", "graph": "spanprof.graph.command", "import": "spanprof.imports.command",
    "conformance": "spanprof.conformance.command"}
OTHER_NAMES = {"test": "conformance"}
CHANGE = re.compile(r"[0-9]+=[0-9]+")
COUNT = re.compile(r"[0-9]+")
OPTIONS = {"greedy": "--threads", "curve": "--upto", "run": "--workers"}


@dataclass
class Route:
    to: str             # one of the five above
    words: List[str]    # its arguments; those of a tool begin with the tool's name


def to_tool(name, words):
    return Route(TOOL, [OTHER_NAMES.get(name, name)] + words)


def with_arguments(name, words, exists):
    """Of a command that a tool and a program have: which of them takes these arguments."""
    if name == "graph":
        return to_tool(name, words) if words else Route(LARGE, [name])
    if words == ["--listed"]:
        return Route(LARGE, [name] + words)
    # Arguments of the tool are options, or name a file or folder; those of the command are SEGMENT=COST.
    others = [word for word in words if not CHANGE.fullmatch(word) and word != "--"]
    is_of_tool = any(word.startswith("-") or exists(word) for word in others)
    return to_tool(name, words) if is_of_tool else Route(PROGRAM, [name] + words)


def route(words, exists):
    """`exists(path)` tells whether there is such a file or folder. What is no command goes to the program, which says
    so."""
    name = words[0] if words else ""
    if name in ("-h", "--help", "help"):
        return Route(HELP, words[1:])
    if words in (["--version"], ["-V"]):
        return Route(VERSION, [])
    if name in ("whatif", "graph"):
        return with_arguments(name, words[1:], exists)
    if name in TOOLS or name in OTHER_NAMES:
        return to_tool(name, words[1:])
    if words[1:] in (["-h"], ["--help"]) and name in COMMANDS + LARGE_COMMANDS:
        return Route(HELP, [name])
    return Route(LARGE if name in LARGE_COMMANDS else PROGRAM, words)


def are_right(words):
    """Whether these are the words of one of the ten commands as docs/FORMATS.md spells them."""
    if not words:
        return True
    name, *rest = words
    if name in OPTIONS:
        return len(rest) == 2 and rest[0] == OPTIONS[name] and bool(COUNT.fullmatch(rest[1]))
    if name == "whatif":
        return bool(rest) and all(CHANGE.fullmatch(word) for word in rest)
    return name in COMMANDS and not rest


def main_of(tool):
    """The function that a tool begins with."""
    return importlib.import_module(TOOLS[tool]).main
