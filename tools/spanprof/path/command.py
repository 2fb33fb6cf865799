"""spanprof-path: which places in the source the span of a recording of any size comes from, and what of the span and of
the work each is.
"""
import argparse
import csv
import sys

from spanprof.answers import Answers, Place, places
from spanprof.client import proved
from spanprof.command import Console, Version, check_files, end_with
from spanprof.head import head_text, warning_lines
from spanprof.recording import text_of

MOST_ROWS = 100
HEADS = "%8s %8s %9s  %s" % ("of span", "of work", "segments", "place")
COLUMNS = (("span", "critical_cost"), ("work", "cost"), ("segments", "critical_segments"), ("place", "name"))
CONSOLE = Console("spanprof-path")
DESCRIPTION = """Lists the places in the source with their shares of the span (the critical path that `slack` prints)
and of the work."""
AFTER = "Exit status 1: the text is refused, out of memory, or spanprof_large is not found; 2: wrong arguments."
VERDICT = "proved of this text: its work, span, this critical path and the sums by place (spanprof_large places)"


def share(part, whole):
    return 100 * part / max(whole, 1)


def row(found, work, span):
    return "%7.1f%% %7.1f%% %9d  %s" % (
        share(found.critical_cost, span), share(found.cost, work), found.critical_segments, found.name)


def lines(every, work, span):
    """Of each place on the path, or with a hundredth of the work; of more than MOST_ROWS the rest is one."""
    shown = [found for found in every if found.critical_cost > 0 or found.cost * 100 >= work]
    yield HEADS
    yield from (row(found, work, span) for found in shown[:MOST_ROWS])
    rest = shown[MOST_ROWS:]
    if rest:
        sums = {own: sum(getattr(found, own) for found in rest) for _, own in COLUMNS[:3]}
        yield row(Place("%d more places" % len(rest), **sums), work, span)


def write_csv(every, file):
    """All places; a name is quoted where it has a comma, a quote or the end of a line in it."""
    writer = csv.writer(file, lineterminator="\n")
    writer.writerow([name for name, _ in COLUMNS])
    writer.writerows([getattr(found, own) for _, own in COLUMNS] for found in every)


def parse(words):
    parser = argparse.ArgumentParser(prog="spanprof-path", description=DESCRIPTION, epilog=AFTER, allow_abbrev=False)
    parser.add_argument("text", metavar="MINE.spanprof", help="a recording, a program text, or - for standard input")
    parser.add_argument("--csv", action="store_true", help="print a row for each place: span,work,segments,place")
    parser.add_argument("--version", action=Version)
    return parser.parse_args(words)


def show(options, found):
    if options.csv:
        write_csv(found, sys.stdout)
        return
    work, span, segments, critical = (sum(getattr(place, name) for place in found)
                                      for name in ("cost", "critical_cost", "segments", "critical_segments"))
    title = "work %d, span %d, parallelism %.1f, %d of %d segments on a critical path" % (
        work, span, work / span if span else 1, critical, segments)
    print(*warning_lines(head_text(options.text)), title, proved(VERDICT), *lines(found, work, span), sep="\n")


def answer(options):
    options.text = text_of(options.text)
    check_files(options.text)
    show(options, places(Answers(options.text)))


def main(words):
    end_with(CONSOLE, lambda: answer(parse(words)))
