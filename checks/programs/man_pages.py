#!/usr/bin/env python3
"""Compares the man pages of tools/man with what they tell of, and has groff read them.

spanprof.1 has every command, error line, kind of fault and exit status of docs/FORMATS.md, and no other; the pages of
the tools have every option and exit status that --help lists, and no other. spanprof.3 has the functions of
include/spanprof.h, and no name that the header has not.
"""
import os
import re
import subprocess
import sys

TOP = os.path.dirname(os.path.dirname(os.path.dirname(os.path.abspath(__file__))))
TOOLS = os.path.join(TOP, "tools")
CONFORMANCE = ("run", "mutants", "shrink", "emit", "judge", "list")
HELP = {"spanprof-record": [[]], "spanprof-convert": [[]], "spanprof-report": [[]], "spanprof-path": [[]],
        "spanprof-predict": [[]], "spanprof-whatif": [[]], "spanprof-import": [[]],
        "spanprof-conformance": [[]] + [[word] for word in CONFORMANCE]}
NAME = re.compile(r"\b(?:[A-Z][a-z]+){2,}\b|\bUnclosed\b|\bUnopened\b|\bBroken\b")
STATUS = re.compile(r"(?<![\w(])\d+(?![\w)])")    # and no section of a page, as in spanprof(1)
ERROR = re.compile(r"error: ([A-Za-z]+(?: [a-z]+)*)")


def read(*path):
    with open(os.path.join(TOP, *path), encoding="utf-8") as file:
        return file.read()


def shown(name, part=1):
    """A page as man shows it, on long lines."""
    done = subprocess.run(["groff", "-man", "-ww", "-Tascii", "-P-cbou", "-rLL=900n", "-rHY=0",
                           os.path.join(TOOLS, "man", "%s.%d" % (name, part))],
                          capture_output=True, text=True, check=False)
    return done.stdout, done.stderr


def section(text, title):
    """What stands in a document below a heading, up to the next one."""
    return re.split(r"(?m)^#+ %s$" % re.escape(title), text)[1].split("\n#")[0]


def listed_in_formats():
    text = read("docs", "FORMATS.md")
    table = section(text, "Errors")
    faults = re.findall(r"\d+\s+`([A-Z][A-Za-z]+)`", text[text.index("The kinds are numbered"):])
    words = re.findall(r"(?m)^\| `([^`]*)` \|", section(text, "The ten commands"))
    return {"error lines": set(ERROR.findall(table)), "kinds": set(faults) | set(NAME.findall(table)),
            "commands": {line.split(" ")[0] for line in words},
            "exit statuses": set(re.findall(r"(?m)^\| [^|]* \| (\d) \|", table))}


def shown_in_page(page):
    parts = dict(re.findall(r"(?ms)^([A-Z ]+)\n(.*?)(?=^[A-Z]|\Z)", page))
    errors = parts["ERRORS"]
    return {"error lines": set(ERROR.findall(errors)), "kinds": set(NAME.findall(errors)),
            "commands": set(re.findall(r"(?m)^ {7}([a-z]+)", parts["COMMANDS"])),
            "exit statuses": set(re.findall(r"(?m)^ {7}(\d)\b", parts["EXIT STATUS"]))}


def help_of(name, words=()):
    done = subprocess.run([os.path.join(TOOLS, name), *words, "--help"], capture_output=True, text=True, check=True)
    return done.stdout


def options_of_help(name, words):
    return set(re.findall(r"(?m)(?<![\w-])--[a-z-]+", help_of(name, words).split("options:")[1]))


def statuses_of_help(reported):
    """Those beside 0 that it names in a sentence on the exit status."""
    sentence = re.search(r"xit status ([^.]*)\.", " ".join(reported.split()))
    return set(STATUS.findall(sentence[1])) - {"0"} if sentence else set()


def statuses_of_page(page):
    return set(STATUS.findall(page.split("\nEXIT STATUS\n")[1].split("\nENVIRONMENT\n")[0])) - {"0"}


def options_of_page(page):
    return set(re.findall(r"(?m)(?<![\w-])--[a-z-]+", page.split("\nOPTIONS\n")[1].split("\nEXIT STATUS\n")[0]))


def differences(what, page, reported):
    for word in sorted(reported - page):
        yield "%s: the page lacks %s" % (what, word)
    for word in sorted(page - reported):
        yield "%s: only the page has %s" % (what, word)


def of_library():
    """Where spanprof.3 and the header differ."""
    page, complaints = shown("spanprof", 3)
    yield from ("spanprof.3: " + line for line in complaints.splitlines())
    header = read("include", "spanprof.h")
    functions = set(re.findall(r"(?m)^uint32_t (spanprof_\w+)", header))
    named = set(re.findall(r"(?<!/)\b(?:spanprof|SPANPROF)_\w+", page))
    yield from differences("spanprof.3", named & functions, functions)
    yield from ("spanprof.3: the header lacks %s" % word for word in sorted(named)
                if not re.search(r"\b%s\b" % word, header))


def faults():
    yield from of_library()
    for name in ["spanprof"] + list(HELP):
        page, complaints = shown(name)
        yield from ("%s.1: %s" % (name, line) for line in complaints.splitlines())
        if name == "spanprof":
            found = shown_in_page(page)
            for what, reported in listed_in_formats().items():
                yield from differences("spanprof.1, " + what, found[what], reported)
        else:
            reported = set().union(*(options_of_help(name, words) for words in HELP[name]))
            yield from differences(name + ".1", options_of_page(page), reported)
            yield from differences(name + ".1, exit statuses", statuses_of_page(page), statuses_of_help(help_of(name)))


def main():
    wrong = list(faults())
    print("\n".join(wrong + ["%d wrong" % len(wrong)]))
    sys.exit(bool(wrong))


if __name__ == "__main__":
    main()
