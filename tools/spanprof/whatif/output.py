"""What is reported of a text and its changed text, in lines and as JSON: what can be changed in it, the numbers of
both, and whether the changed text has the segments of the text and waits for no more, as spanprof_large finds.
"""
import json

from spanprof import client
from spanprof.client import proved
from spanprof.command import Fault
from spanprof.head import grouped, speaks_of, why_not_of_more_threads
from spanprof.program_text import Document, TextFile
from spanprof.whatif.requests import OPTIONS

MOST_NAMES = 30
PROVED = "proved of the text as changed: the same segments, no more to wait for"
HEADS = "%-22s %18s %18s %9s"


def by_count(title, counted):
    """The first names by their count, and how many more there are."""
    names = [(name, number) for name, number in counted.most_common() if number]
    if not names:
        return []
    more = ["%14s  of %d more names" % ("", len(names) - MOST_NAMES)] if len(names) > MOST_NAMES else []
    return [title] + ["%14s  %s" % (grouped(number), name) for name, number in names[:MOST_NAMES]] + more


def listing(seen, costs):
    """`costs` are those of the code at each place."""
    yield from by_count("code, with its cost (--factor, --split, --grain, --task):", costs)
    yield from by_count("tasks (--join):", seen.tasks)
    yield from by_count("waits (--drop-wait):", seen.waits)
    yield from by_count("tasks with depend items (--drop-depend, --read-only, --rename):", seen.dependent)
    yield from by_count("names of depend items, with their items (--drop-name):", seen.items)
    yield "depth of the tasks (--cutoff): %d" % seen.depth


def proof_of(made, old, new):
    """A line on these changes of the text in the file `old`, which made that in `new`; none where nothing is proved."""
    if client.not_proved() or not all(one.relaxes for one in made):
        return []
    try:
        client.ask(["relaxation"], Document(old, [str(TextFile(new)), "\n"]))
    except client.Refused as refused:
        if refused.is_of_memory:
            return []
        raise Fault("the change is wrong, which is a fault of this tool: %s" % refused) from refused
    return [PROVED]


def change(before, after):
    """By how much it changes, in per cent of what it was."""
    return "%+.1f %%" % (100 * (after - before) / before) if before else ""


def pairs(before, after):
    """Names, and the numbers of both."""
    yield "segments", before.segments, after.segments
    yield "work", before.work, after.work
    yield "span", before.span, after.span
    for p in before.on:
        for name in ("least", "end", "bound"):
            numbers = getattr(before.on[p], name), getattr(after.on[p], name)
            if None not in numbers:
                yield "%d threads, %s" % (p, name), *numbers


def proof_words(before, after):
    words = proved("proved of the text, and of the changed text: spanprof has read both")
    has_ends = all(row.end is not None for numbers in (before, after) for row in numbers.on.values())
    return words if has_ends else words + "; there was too little memory for a greedy schedule"


def notes(requests, made, costs, head, threads):
    """What stands above the numbers."""
    yield from ("changed: " + one.words() for one in made)
    if any(hasattr(one, "creating") for one in made):
        yield "a creation is assumed to cost %s: %s" % (grouped(costs.creating), costs.why)
    asked = {request.option for request in requests}
    yield from dict.fromkeys(option.judgement for option in OPTIONS if option.judgement and option.name in asked)
    yield from ("warning: " + remark for remark in head.remarks)
    yield from ("on %d threads: %s" % (p, why_not_of_more_threads(head)) for p in threads if not speaks_of(head, p))


def lines(before, after, unit=""):
    in_unit = "in %s%s" % ("x " * unit[:1].isdigit(), unit) if unit else ""     # a number of nanoseconds is a factor
    yield (HEADS % (in_unit, "text", "changed text", "")).rstrip()
    for name, was, now in pairs(before, after):
        yield (HEADS % (name, grouped(was), grouped(now), change(was, now))).rstrip()
    yield proof_words(before, after)


def numbers_json(numbers):
    return {"by": numbers.by, "segments": numbers.segments, "work": numbers.work, "span": numbers.span,
            "threads": {str(p): row._asdict() for p, row in numbers.on.items()}}


def as_json(reported, before, after, predicted=None):
    """Without a model of the machine no time is predicted."""
    out = {"notes": list(reported), "text": numbers_json(before), "changed text": numbers_json(after),
           "proved": proof_words(before, after)}
    return json.dumps({**out, "predicted": predicted} if predicted else out, indent=2)
