"""Timed runs of random programs, legal ones and others, and greedy schedules as timed runs, for documents of
`account`."""
import random
import sys
from pathlib import Path

sys.path.insert(0, str(Path(__file__).resolve().parent / "large_recordings"))
import random_programs  # noqa: E402
import whole_graph  # noqa: E402

MOST_SEGMENTS = 40


def draw_rows(rng, before, threads):
    """A legal run: thread, begin and end by segment. Each begins when its predecessors have ended, often later."""
    free, rows = [0] * threads, []
    for segments in before:
        ready = max((rows[s][2] for s in segments), default=rng.randint(0, 2))
        thread = rng.randrange(threads)
        begin = max(ready, free[thread]) + rng.choice((0, 0, 0, 1, 3))
        end = begin + rng.choice((0, 1, 1, 2, 5))
        free[thread] = max(free[thread], end)
        rows.append((thread, begin, end))
    return rows


def spoil_rows(rng, rows, threads):
    """Rows of which one has another thread, begin or end."""
    s = rng.randrange(len(rows))
    thread, begin, end = rows[s]
    rows[s] = rng.choice(((rng.randint(0, threads), begin, end), (thread, max(0, begin - rng.randint(1, 3)), end),
                          (thread, begin, max(0, end + rng.randint(-3, 4)))))
    return rows


def lines_of(rows, threads, first, last):
    return [f"times {threads} {first} {last}"] + [f"{s} {t} {b} {e}" for s, (t, b, e) in enumerate(rows)]


def spoil_lines(rng, lines):
    """Lines of which one is gone, there twice, of another form, or of another segment; or blank ones among them."""
    k = rng.randrange(len(lines))
    kind = rng.choice(("gone", "twice", "form", "segment", "blank", "number"))
    if kind == "gone":
        return lines[:k] + lines[k + 1:]
    if kind == "twice":
        return lines + [lines[k]]
    if kind == "blank":
        return lines[:k] + ["", " \t\r"] + lines[k:] + [""]
    wrong = {"form": "7 7 7", "segment": f"{len(lines) - 1 + rng.randint(0, 1)} 0 0 0", "number": "1 0 0 4x"}[kind]
    return lines[:k] + [wrong] + lines[k:]


def draw_case(seed):
    """A program's text with the lines of a run of it."""
    rng = random.Random(seed)
    text, graph = "", None
    while graph is None or len(graph.costs) > MOST_SEGMENTS:
        text = random_programs.draw(rng.random())
        graph = whole_graph.read(text.splitlines())
    threads = rng.randint(1, 4)
    rows = draw_rows(rng, graph.before, threads)
    first = rng.randint(0, min(begin for _, begin, _ in rows))
    last = max(end for _, _, end in rows) + rng.randint(0, 3)
    if rng.random() < 0.4:
        rows = spoil_rows(rng, rows, threads)
    if rng.random() < 0.05:
        threads, last = rng.choice(((0, last), (1025, last), (threads, first - 1), (threads, 10 ** 15 + 1)))
    lines = lines_of(rows, threads, first, max(last, 0))
    lines[1:] = rng.sample(lines[1:], len(lines) - 1)
    if rng.random() < 0.3:
        lines = spoil_lines(rng, lines)
    return text + "---\n" + "\n".join(lines) + "\n"


def as_a_run(text, table, threads):
    """The text with its greedy schedule as a timed run. A segment that costs nothing has no thread: any will do."""
    cells = [row.split(",") for row in table.splitlines()[1:]]
    rows = [(int(thread or 0), int(start), int(end)) for _, start, end, thread in cells]
    return text + "---\n" + "\n".join(lines_of(rows, threads, 0, max(end for _, _, end in rows))) + "\n"
