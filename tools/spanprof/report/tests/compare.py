"""Compares each number of a page with what it has to be.

    python3 -m spanprof.report.tests.compare PAGE.html [MINE.tasks]    in tools/; status 1 if one is wrong
Without a text it is that of the page's own name, beside it.
"""
import json
import math
import os
import sys

from spanprof.report.tests.expected import Program, table, unpacked
from spanprof.report.tests.page_reader import read_page


def is_same(shown, expected):
    """Whole numbers as they are, quotients to six digits."""
    return shown == str(expected) if isinstance(expected, int) else shown == "%.6g" % expected


def is_seen(words, expected, rounded=""):
    """What a reader sees, to as many digits as are shown: the nearest, or the next one up or down."""
    plain = words.replace(",", "").replace("−", "-")
    digits = len(plain.partition(".")[2])
    if rounded:
        to_whole = math.ceil if rounded == "up" else math.floor
        near = round(expected * 10 ** digits, 6)    # a quotient of whole numbers in binary is not quite itself
        expected = to_whole(near) / 10 ** digits
    words = "%.*f" % (digits, expected)
    return plain.lstrip("+") == (words if float(words) else words.lstrip("-"))    # nothing has no sign


def faults_of(figure, program):
    values = list(map(program.value, figure.sources))
    if len(figure.shown) != len(values):
        return ["%s: the page has %r" % ("; ".join(figure.sources), figure.words)]
    wrong = ["%s: the page shows %s, and not %s" % (source, words, value)
             for source, words, value in zip(figure.sources, figure.shown, values)
             if not is_seen(words, value / figure.scale, figure.rounded)]
    if figure.exact and not is_same(figure.exact, values[0]):
        wrong.append("%s: the page has %s, and not %s" % (figure.sources[0], figure.exact, values[0]))
    return wrong


def is_greedy(program, run):
    rows = table(program.answer("greedy", "--threads", str(run["count"])))
    expected = [(int(row["start"]), int(row["thread"]) if row["thread"] else None) for row in rows]
    return list(zip(unpacked(run["starts"]), unpacked(run["lanes"]))) == expected


def is_recorded(program, run):
    """To a nanosecond."""
    per = run.get("per", 1)
    lengths = unpacked(run["lengths"]) if "lengths" in run else program.cost
    drawn = [(lane, start / per, (start + length) / per) for lane, start, length in
             zip(unpacked(run["lanes"]), unpacked(run["starts"]), lengths) if lane is not None]
    expected = [(int(worker), start, end) for start, end, worker in program.bars]
    near = 0.51 / per
    return len(drawn) == len(expected) and all(
        a[0] == b[0] and abs(a[1] - b[1]) <= near and abs(a[2] - b[2]) <= near
        for a, b in zip(sorted(drawn), sorted(expected)))


def drawn_differences(program, data):
    """Where the runs that the script draws are not those of the command and of the recording."""
    runs = data["runs"]
    wrong = [] if is_greedy(program, runs["greedy"]) else ["the greedy schedule that is drawn is another"]
    if "recorded" in runs and not is_recorded(program, runs["recorded"]):
        wrong.append("the recorded run that is drawn is another")
    if unpacked(data["critical"]) != program.segments(on_path=True):
        wrong.append("the critical path that is drawn is another")
    if unpacked(data["slack"]) != [int(row["slack"]) for row in program.slack]:
        wrong.append("the slacks of the tooltips are others")
    return ["%s: %s" % (data["name"], words) for words in wrong]


def program_of(reader, path, ask):
    """The program of a page, with what its script knows of it."""
    return Program(path, json.loads(reader.data), ask)


def differences(page, path, ask):
    """All numbers of the page that are not what they have to be, and how many there are."""
    reader = read_page(page)
    program = program_of(reader, path, ask)
    wrong = [fault for figure in reader.figures for fault in faults_of(figure, program)]
    wrong += ["%r: a number without a source" % words for words in reader.without_source]
    wrong += drawn_differences(program, program.data)
    return wrong, sum(len(figure.sources) for figure in reader.figures)


def text_beside(path, page):
    """The text that the page's script knows, where none is named."""
    return os.path.join(os.path.dirname(path), json.loads(read_page(page).data)["name"])


def main(paths):
    from spanprof import client
    with open(paths[0], encoding="utf-8") as file:
        page = file.read()
    wrong, count = differences(page, paths[1] if paths[1:] else text_beside(paths[0], page), client.ask)
    for line in wrong:
        print(line)
    print("%d numbers, %d wrong" % (count, len(wrong)))
    sys.exit(bool(wrong))


if __name__ == "__main__":
    main(sys.argv[1:])
