#!/usr/bin/env python3
"""Compares what the library tells of certificates, and of texts of any size and timed runs, with spanprof and
spanprof_large, called from C and from Python.

    others.py ASK SANITIZED SPANPROF LARGE    the first two are the program of ask.c, plain and under the
                                                             sanitizers; SPANPROF_LIBRARY names the library
Without the second program only certificates are compared. The last line counts the comparisons and those that differ.
"""
import os
import random
import re
import sys

import answers
import texts
from beyond import any_size, plainly

sys.path.insert(0, str(texts.TOP / "tools"))
from comparison import Comparison  # noqa: E402

SMALL = 100_000
FEW = 16  # of so many damaged texts one, since a program is read here as `span` reads it


def spoilt(document, dice):
    """A document with one number of what stands behind its program changed, or one word left out."""
    text, divider, claim = document.partition(b"---\n")
    words = re.split(rb"(\s+)", claim)
    numbers = [place for place, word in enumerate(words) if word.isdigit()]
    place = dice.choice(numbers)
    words[place] = dice.choice((b"0", b"%d" % (int(words[place]) + 1), b"%d" % max(int(words[place]) - 1, 0), b""))
    return text + divider + b"".join(words)


def certificates(comparison, program, large, dice):
    """Certificates that spanprof writes, and spoilt ones, each also as one of any size."""
    ways = [(["check"], program)] + ([(["any", "check"], large)] if os.access(large, os.X_OK) else [])
    for name, text in texts.examples():
        status, written = answers.of_program([program, "certify"], text)
        if status or len(written) > SMALL:
            continue
        document = written.encode()
        for number, one in enumerate([document, text] + [spoilt(document, dice) for _ in range(6)]):
            for words, other in ways:
                comparison.compare("%s, certificate %d" % (name, number), words, one, [other, "check"], plainly)
    for name, text in list(texts.hostile())[::FEW]:
        for words, other in ways:
            comparison.compare(name, words, text, [other, "check"], plainly)


def timed(program, text, threads):
    """A greedy schedule as a timed document, by rows of a segment, its thread, its begin and its end."""
    reported = answers.of_program([program, "greedy", "--threads", str(threads)], text)[1].splitlines()[1:]
    rows = [[int(word or 0) for word in (s, thread, start, end)]
            for s, start, end, thread in (line.split(",") for line in reported)]
    return rows, max((row[3] for row in rows), default=0)


def document_of(text, threads, first, last, rows):
    lines = ["%d %d %d %d" % tuple(row) for row in rows]
    return text.rstrip(b"\n") + ("\n---\ntimes %d %d %d\n" % (threads, first, last) + "\n".join(lines)).encode()


def accounts(comparison, program, large, dice):
    """Timed runs of version 1, and some with a thread, a begin or an end changed, or on other threads."""
    for name, text in texts.examples():
        threads = dice.choice((1, 2, 4))
        if len(text) > SMALL or answers.of_program([large], text)[0]:
            continue
        rows, last = timed(program, text, threads)
        documents = [document_of(text, threads, 0, last, rows), document_of(text, 0, 0, last, rows),
                     document_of(text, 3 * threads, 0, last + 5, rows), document_of(text, threads, 9, 8, rows)]
        for _ in range(6):
            other = [list(row) for row in rows]
            place = dice.choice((1, 2, 3))
            dice.choice(other)[place] += dice.choice((1, 2, threads))
            documents.append(document_of(text, threads, 0, last + 9, other))
        for number, document in enumerate(documents):
            for words in (["account"], ["account", "--rows"], ["any", "account"]):
                comparison.compare("%s, run %d" % (name, number), words, document,
                                   [large, *(word for word in words if word != "any")], plainly)


def main(ask, sanitized, program, large):
    dice, comparison = random.Random(11), Comparison(sanitized)
    certificates(comparison, program, large, dice)
    print("certificates: %d compared" % comparison.made, flush=True)
    if os.access(large, os.X_OK):
        accounts(comparison, program, large, dice)
        print("and timed runs: %d compared" % comparison.made, flush=True)
        any_size(comparison, ask, large)
    else:
        print("left out, since there is no %s" % large)
    print("%d compared, %d wrong" % (comparison.made, comparison.wrong))
    return 1 if comparison.wrong else 0


if __name__ == "__main__":
    sys.exit(main(*sys.argv[1:]))
