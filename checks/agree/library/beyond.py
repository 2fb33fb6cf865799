"""Texts of any size, which the library is asked about as spanprof_large is."""
import re

import answers
import texts

LARGE_WORDS = (["slack"], ["greedy", "--threads", "3"], ["curve", "--upto", "4"], ["whatif", "0=7"])
REFUSED = (["greedy", "--threads", "0"], ["curve", "--upto", "1025"])
SMALL = 100_000


def plainly(reported):
    """An answer of spanprof_large without its number of tasks."""
    return re.sub(r"^tasks \d+\n", "", reported)


def beyond_limits():
    """Texts that spanprof refuses for their size: many tasks, deep ones, many names of one task."""
    yield "70,000 tasks", b"omptasks 1\n" + b"task { work 2 }\n" * 70_000 + b"taskwait work 3\n"
    yield "300 deep", b"omptasks 1\n" + b"task { work 1 " * 300 + b"}" * 300
    names = b", ".join(b"n%d" % number for number in range(1000))
    yield "1,000 names", b"omptasks 1\n" + b"task depend(out: %s) { work 2 } task depend(in: n7) { work 3 }" % names
    yield "200,000 deep, open", b"omptasks 1\n" + b"task { work 1 " * 200_000
    yield "a comment of 9 MB", b"omptasks 1\n#" + b"x" * 9_000_000 + b"\nwork 3"


def words_for(text, large):
    """spanprof_large refuses a number of threads before it reads, and the library a text before that."""
    return LARGE_WORDS + (() if answers.of_program([large], text)[0] else REFUSED)


def any_size(comparison, ask, large):
    """Texts of any size: examples and damaged texts by the comparison's own program, and large ones by another."""
    for name, text in list(texts.examples()) + list(texts.hostile()):
        comparison.compare(name, ["any", "span"], text, [large], plainly)
        for words in words_for(text, large) if len(text) < SMALL and "damaged" not in name else ():
            comparison.compare(name, ["any", *words], text, [large, *words], plainly)
    comparison.ask = ask
    for name, text in beyond_limits():
        comparison.compare(name, ["any", "span"], text, [large], plainly)
        for words in LARGE_WORDS[:3]:
            comparison.compare(name, ["any", *words], text, [large, *words], plainly)
