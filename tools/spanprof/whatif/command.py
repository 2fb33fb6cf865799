"""spanprof-whatif: a recorded text with another shape or other costs, and what spanprof tells of it."""
import argparse
import os
import shutil
import sys
import tempfile
from functools import partial

from spanprof import client
from spanprof.answers import Answers, numbers_of
from spanprof.command import Console, Fault, Version, check_files, count, end_with
from spanprof.predict.predictions import changed_reported
from spanprof.program_text import TextFile, as_text, statements
from spanprof.recording import text_of
from spanprof.whatif.output import as_json, lines, listing, notes, proof_of
from spanprof.whatif.requests import OPTIONS, Request, Text, applied, changes, costs_for, survey, version_of, write

DESCRIPTION = """Changes a recorded program text as one might change the program, and compares work, span, and the
bounds and end of greedy schedules before and after. Changes are made in the order of the arguments."""
AFTER = """PLACE is a name that --places lists, or a part of it that no other name has. Exit status 1: a file or a place
is missing, or a text is refused; 2: wrong arguments."""


def parse(words):
    parser = argparse.ArgumentParser(prog="spanprof-whatif", usage="%(prog)s [options] MINE.spanprof",
                                     description=DESCRIPTION, epilog=AFTER, allow_abbrev=False)
    add = parser.add_argument
    add("text", metavar="MINE.spanprof", help="a recording, a program text, or - for standard input")
    for option in OPTIONS:
        add("--" + option.name, dest="requests", action="append", type=partial(Request, option.name),
            metavar=option.metavar, default=[], help=option.help)
    add("--threads", type=count(1, 1024), metavar="P", help="numbers for P threads (default: as many as were recorded)")
    add("--creating", type=count(0, 10 ** 12), metavar="COST",
        help="the cost of creating a task (default: as in the text)")
    add("-o", "--output", metavar="CHANGED.tasks",
        help="write the changed text to this file; - is standard output, and the numbers go to standard error then")
    add("--places", action="store_true", help="list the places and depend items that can be changed")
    add("--json", action="store_true", help="print JSON")
    add("--version", action=Version)
    chosen = parser.parse_args(words)
    if not (chosen.requests or chosen.places):
        parser.error("nothing to change; --places lists what there is")
    if chosen.output and not chosen.requests:
        parser.error("-o needs a change")
    return chosen


def compare(chosen, text, before, path):
    """Writes the changed text to a file, and prints what is reported of both."""
    threads = list(before.on)
    found = text.statements()
    seen = survey(found)
    costs = costs_for(text.head, seen, chosen.creating)

    def asked():
        return changes(chosen.requests, seen, costs)
    made = asked()
    write(path, text, applied(found, made), made)
    idle = [one for one in made if not one.count]
    if idle:
        raise Fault("this changes nothing: %s" % idle[0].words())
    after = numbers_of(TextFile(path), threads)
    reported = [*notes(chosen.requests, made, costs, text.head, threads), *proof_of(made, chosen.text, path)]

    def changed(region):
        return as_text(applied(statements(region.splitlines()), asked()))
    times, predicted = changed_reported(chosen.text, changed, threads[0]) if text.head.is_measured else ([], None)
    print(as_json(reported, before, after, predicted) if chosen.json else
          "\n".join([*reported, *lines(before, after, text.head.unit), *times]),
          file=sys.stderr if chosen.output == "-" else sys.stdout)


def answer(chosen):
    chosen.text = text_of(chosen.text)
    check_files(chosen.text, chosen.output)
    client.measured(chosen.text)
    text = Text(chosen.text, version_of(chosen.text))
    if chosen.places:
        print("\n".join(listing(survey(text.statements()), Answers(chosen.text).costs())))
    if chosen.requests:
        with tempfile.TemporaryDirectory(prefix="spanprof-whatif-") as folder:
            before = numbers_of(TextFile(chosen.text), [min(chosen.threads or text.head.threads or 4, 1024)])
            path = os.path.join(folder, "changed.tasks")
            compare(chosen, text, before, path if chosen.output in (None, "-") else chosen.output)
            if chosen.output == "-":
                with open(path, encoding="utf-8") as file:
                    shutil.copyfileobj(file, sys.stdout)


def main(words):
    end_with(Console("spanprof-whatif"), lambda: answer(parse(words)))
