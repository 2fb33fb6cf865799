"""The sums by place of a critical path by a plain program, which shares nothing with the tools: of a text of version 1
and of the rows that `spanprof_large slack` tells of it. The rows are compared with the whole graph of the text."""
import csv
import re
from collections import Counter

WORDS = re.compile(r"[A-Za-z0-9_]+|[{}(),:]")
AFTER = {"task": "creating a task", "taskgroup": "taskgroup"}     # what the code behind a block follows


class Wrong(Exception):
    pass


def words_of(text):
    """Each word, and the comment of its line."""
    for line in text.split("\n"):
        code, _, comment = line.partition("#")
        for word in WORDS.findall(code):
            yield word, comment.strip()


PART = "one of the region's threads"
SHARES = {"turns of the loop": "between turns of the loop", "a section": "between sections"}    # and what is between
GROUPS = ("the loop", "the sections")


def of_regions(words):
    """The words of a text, where a group that begins with the code of a region's thread is said to be its barrier."""
    words = list(words)
    for i, (word, comment) in enumerate(words):
        following = words[i + 1:i + 3]
        if word == "{" and words[i - 1][0] == "taskgroup" and [one[0] for one in following] == ["task", "{"] \
                and following[1][1].startswith(PART):
            comment = "the barrier of the region" + (" at " + comment if comment else "")
        yield word, comment


def after(what, comment):
    construct, at, place = comment.partition(" at ")
    if what == "creating a task" and construct in SHARES:
        return SHARES[construct] + at + place
    if comment.startswith("the barrier") or what == "taskgroup" and construct in GROUPS:
        return "after " + comment
    if comment.startswith(PART) and what == "creating a task":
        return "starting " + comment
    if comment:
        return "after %s at %s" % (what, comment)
    return "after " + what if what == "creating a task" else "after a " + what


def of_task(comment):
    if comment.partition(" at ")[0] in SHARES:
        return comment
    begin = "code of " if comment.startswith(PART) else "task at "
    return begin + comment if comment else "a task"


def places_of(text):
    """Of each segment the name of its place: segments are numbered in the order in which the text begins them."""
    names, blocks, words = ["the beginning"], [], of_regions(words_of(text))
    for kind, comment in words:
        if kind in AFTER:
            while (found := next(words))[0] != "{":
                pass
            blocks.append((kind, found[1]))
            if kind == "task":
                names.append(of_task(found[1]))
        elif kind == "}":
            kind, comment = blocks.pop()
            names.append(after(AFTER[kind], comment))
        elif kind == "taskwait":
            names.append(after(kind, comment))
    return names


def rows_of(reported):
    """Costs, earliest starts, and the segments of the chain."""
    rows = [{name: int(value) for name, value in row.items()} for row in csv.DictReader(reported.splitlines())]
    if [row["segment"] for row in rows] != list(range(len(rows))):
        raise Wrong("the segments are not numbered from 0")
    return ([row["cost"] for row in rows], [row["start"] for row in rows],
            [row["segment"] for row in rows if row["chain"]])


def earliest_starts(graph):
    starts, ends = [], []
    for cost, before in zip(graph.costs, graph.before):
        starts.append(max((ends[s] for s in before), default=0))
        ends.append(starts[-1] + cost)
    return starts


def check_rows(graph, costs, starts, chain):
    """Against a graph that knows of each segment its cost, and which segments it follows."""
    if costs != graph.costs or starts != earliest_starts(graph):
        raise Wrong("other costs or starts than by the whole graph")
    for one, other in zip(chain, chain[1:]):
        if one not in graph.before[other]:
            raise Wrong("segment %d does not follow %d, which stands before it on the chain" % (other, one))
    if sum(costs[s] for s in chain) != graph.span:
        raise Wrong("the chain costs %d, and the span is %d" % (sum(costs[s] for s in chain), graph.span))


def sums_by_place(text, costs, chain):
    """Of each place: its costs on the chain, all its costs, and its segments on the chain."""
    names, on_chain = places_of(text), set(chain)
    if len(names) != len(costs):
        raise Wrong("%d rows of %d segments" % (len(costs), len(names)))
    span, work, count = Counter(), Counter(), Counter()
    for s, (name, cost) in enumerate(zip(names, costs)):
        work[name] += cost
        span[name] += cost * (s in on_chain)
        count[name] += s in on_chain
    return sorted((span[name], work[name], count[name], name) for name in work)
