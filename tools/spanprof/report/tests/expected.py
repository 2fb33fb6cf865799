"""What each number of a page has to be, worked out again from the answers of spanprof alone."""
import json
import re
from functools import cached_property

from spanprof.head import read_head
from spanprof.program_text import has_loops
from spanprof.recording import document, open_recording
from spanprof.segment_table import read_code
from spanprof.time_breakdown import breakdown_of

ROWS_OF_A_CURVE = 64


def unpacked(words):
    return [None if word == "-" else int(word, 36) for word in words.split()]


def table(text):
    heads, *lines = [line.split(",") for line in text.split("\n") if line]
    return [dict(zip(heads, line)) for line in lines]


class Sums:
    """What has terms by name, and sums, differences and quotients of them."""

    def term(self, words):
        name, *rest = words.split()
        method = getattr(self, name.replace("-", "_"), None)
        assert method, "%s has no method %r, which computes the source %r" % (__file__, name, words)
        return method(*rest)

    def value(self, source):
        """Of `[percent] A [+ B ..] [- B ..] [/ C]`."""
        is_percent = source.startswith("percent ")
        above, _, below = source.removeprefix("percent ").partition(" / ")
        signed = re.split(r" ([+-]) ", "+ " + above)
        first, rest = signed[0].removeprefix("+ "), zip(signed[1::2], signed[2::2])
        value = self.term(first) + sum(self.term(other) * (1 if sign == "+" else -1) for sign, other in rest)
        if below:
            whole = self.term(below)
            value = value / whole if whole else 0.0 if is_percent else 1.0
        return 100 * value if is_percent else value


class Program(Sums):
    """One program; `ask` gives what spanprof prints for words and a text. Sources begin with a method's name."""

    def __init__(self, path, data, ask):
        with open(path, encoding="utf-8") as file:
            self.text = file.read()
        self.file, self.ask, self.timed = path, ask, document(open_recording(path))
        self.place_of, self.task_place_of = unpacked(data["place"]), unpacked(data["taskPlace"])
        self.slack = table(ask(["slack"], self.text))
        self.cost = [int(row["cost"]) for row in self.slack]
        self.task_of = [int(row["task"]) for row in self.slack]
        self.data, self.kept = data, {}

    def answer(self, *words):
        if words not in self.kept:
            self.kept[words] = self.ask(list(words), self.text)
        return self.kept[words]

    def line(self, name, *words):
        return int(re.search(r"(?m)^%s (\d+)$" % name, self.answer(*words))[1])

    def segments(self, places=None, on_path=None):
        return [s for s, row in enumerate(self.slack) if (places is None or self.place_of[s] in places)
                and (on_path is None or (row["chain"] == "1") == on_path)]

    def total(self, segments):
        return sum(self.cost[s] for s in segments)

    def span(self, name):
        return self.line(name, "span")

    def curve(self, threads, column):
        """Of as many rows as are needed, and of many at once."""
        upto = str(max(int(threads), ROWS_OF_A_CURVE))
        return int(table(self.answer("curve", "--upto", upto))[int(threads) - 1][column])

    def tasks(self):
        return max(self.task_of)

    def parts(self):
        """Tasks that stand for a thread's own code, by the comments of the text."""
        return len(re.findall(r"(?m)^\s*task\b.*\{.*# one of the region's threads$", self.text))

    def pieces(self):
        """Tasks that stand for turns of loops, or sections, by the head of the text."""
        found = re.search(r'(?m)^# whole program: .*"pieces": (\d+)', self.text)
        return int(found[1]) if found else 0

    def head(self, *name):
        return int(re.search(r"(?m)^# %s: (\d+)" % " ".join(name), self.text)[1])

    def recorded(self):
        found = re.search("(?m)^# recorded: (.*)", self.text)
        return json.loads(found[1]) if found else {}

    def elapsed(self):
        return self.head("elapsed")

    def threads(self):
        """Those of the head, and those that the recorded run needed."""
        needed = 1 + max((int(worker) for _, _, worker in self.bars), default=0)
        return max(self.recorded().get("threads", 1), needed)

    def place(self, number, what):
        own, path = self.segments({int(number)}), self.segments({int(number)}, True)
        return {"cost": self.total(own), "path": self.total(path),
                "slack": min(int(self.slack[s]["slack"]) for s in own)}[what]

    def task_place(self, number, what):
        members = {task for task, place in enumerate(self.task_place_of) if place == int(number)}
        own = [s for s, task in enumerate(self.task_of) if task in members]
        costs = sorted(self.total(s for s in own if self.task_of[s] == task) for task in members)
        path = [s for s in own if self.slack[s]["chain"] == "1"]
        return {"count": len(costs), "cost": sum(costs), "median": costs[(len(costs) - 1) // 2],
                "path": self.total(path)}[what]

    def path(self, _):
        return len(self.segments(on_path=True))

    @cached_property
    def found(self):
        """The account of the run beside the text, asked anew."""
        text = self.answer("show") if has_loops(self.text) else self.text
        return breakdown_of(read_head(self.text), self.line("work", "span"), self.timed,
                            list(read_code(text.split("\n"), "the text").places))

    def account(self, what, number=None):
        if number is None:
            parts = {name.replace(" ", "-"): value for name, value in self.found.parts.items()}
            return {**parts, "whole": self.found.whole, "elapsed": self.found.elapsed}[what]
        name = self.found.places[self.segments({int(number)})[0]]
        return {"delayed-at": self.found.delayed_by, "starved-at": self.found.starved_by}[what][name]

    @cached_property
    def measured(self):
        """What `spanprof-record --scale` wrote beside the text."""
        recorded = open_recording(self.file).file("scale.json")
        with open(recorded or self.file.replace(".tasks", ".scale.json"), encoding="utf-8") as file:
            return json.load(file)

    def scale(self, threads, name):
        rows = {row["threads"]: row for row in self.measured["threads"]}
        return rows[int(threads)][name.replace("speedup-", "speedup ")]

    def greedy(self, _):
        threads = self.data["runs"]["greedy"]["count"]
        return threads * self.curve(str(threads), "end")

    @cached_property
    def bars(self):
        """Start, end and worker of each segment, where there is a recorded run."""
        if not self.timed:
            return []
        number, _, unit = self.recorded()["unit"].rpartition(" ")
        scale = int(number or 1) * {"ns": 1, "us": 1000, "ms": 1000000}[unit]
        with open(self.timed, encoding="utf-8") as file:
            rows = [line.split() for line in file.read().partition("\ntimes ")[2].split("\n")[1:] if line]
        return [(int(begin) / scale, int(end) / scale, worker) for _, worker, begin, end in rows]

    def run(self, what):
        end = max(end for _, end, _ in self.bars)
        return {"end": round(end), "busy": sum(end - start for start, end, _ in self.bars),
                "time": end * self.threads()}[what]
