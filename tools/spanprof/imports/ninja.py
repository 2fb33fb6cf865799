"""A build by ninja: .ninja_log has the times of commands, and `ninja -t graph` tells which needs whose output."""
import itertools
import re
from collections import defaultdict
from typing import NamedTuple

from spanprof.command import Fault
from spanprof.imports.tasks import Imported, Task, timed

HEAD = re.compile(r"# ninja log v([5-7])$")
NODE = re.compile(r'"([^"]+)" \[label="(.*)"(, shape=ellipse)?\]$')
ARROW = re.compile(r'"([^"]+)" -> "([^"]+)"')
MILLISECOND = 10 ** 6
SEVERAL = "the log is of several builds"


class Line(NamedTuple):
    at: str
    begin: int
    end: int
    output: str
    command: str    # its checksum

    @property
    def key(self):
        """The same for all outputs of a command."""
        return self.begin, self.end, self.command


def log_lines(path):
    with open(path, encoding="utf-8", errors="replace") as file:
        if not HEAD.match(file.readline().rstrip("\n")):
            raise Fault("%s:1: no log of ninja of versions 5 to 7" % path)
        for number, line in enumerate(file, 2):
            at, fields = "%s:%d" % (path, number), line.rstrip("\n").split("\t")
            if len(fields) != 5 or not re.fullmatch(r"-?\d+ -?\d+", " ".join(fields[:2])):
                raise Fault("%s: not the times, output and checksum of a command" % at)
            yield Line(at, int(fields[0]) * MILLISECOND, int(fields[1]) * MILLISECOND, *fields[3:])


class Log:
    """The last run of each command, by its outputs. A command with several outputs has a line for each."""

    def __init__(self, path):
        self.lines, self.is_of_one, last = {}, True, 0
        for line in log_lines(path):
            self.is_of_one = self.is_of_one and line.end >= last and line.output not in self.lines
            self.lines[line.output], last = line, line.end


class Graph:
    """Files and commands by their names in the language of Graphviz, and what points at each."""

    def __init__(self, path):
        self.path, self.labels, self.commands, self.pointing = path, {}, set(), defaultdict(list)
        with open(path, encoding="utf-8", errors="replace") as file:
            for number, line in enumerate(file, 1):
                self.read("%s:%d" % (path, number), line.strip())
        for name, at in itertools.chain.from_iterable(self.pointing.values()):
            if name not in self.labels:     # an output has none of which nothing else is made
                raise Fault("%s: an arrow from %s, which has no label" % (at, name))

    def read(self, at, line):
        node, arrow = NODE.match(line), ARROW.match(line)
        if arrow:
            self.pointing[arrow[2]].append((arrow[1], at))
        elif node:
            self.labels[node[1]] = node[2]
            self.commands |= {node[1]} if node[3] else set()

    def inputs(self, node):
        """What a file is made of, also by way of its command."""
        for first, _ in self.pointing.get(node, ()):
            yield from self.inputs(first) if first in self.commands else (first,)


class Build:
    """Tasks for the commands of the log. Files without a command, such as phony ones, join what they are made of."""

    def __init__(self, log, graph):
        self.graph, self.tasks, self.known, numbers = graph, [], {}, {}
        logged = {node: log.lines[name] for node, name in graph.labels.items()
                  if name in log.lines and node not in graph.commands}
        for node, line in logged.items():
            if line.key not in numbers:
                numbers[line.key] = self.add(timed(line.at, line.output, line.begin, line.end))[0]
            self.known[node] = [numbers[line.key]]
        for node in logged:
            task = self.tasks[self.known[node][0]]
            found = {number for first in graph.inputs(node) for number in self.made_by(first)}
            task.before = sorted({*task.before, *found})
        self.left_out = sum(line.key not in numbers for line in log.lines.values())

    def add(self, task):
        self.tasks.append(task)
        return [len(self.tasks) - 1]

    def made_by(self, node):
        """The tasks behind which a file is there: none of a source, and one at most."""
        if node not in self.known:
            self.known[node] = None
            found = sorted({number for first in self.graph.inputs(node) for number in self.made_by(first)})
            self.known[node] = found if len(found) < 2 else self.add(Task(self.graph.labels[node], before=found))
        if self.known[node] is None:
            raise Fault("%s: a cycle at %s" % (self.graph.path, self.graph.labels[node]))
        return self.known[node]


def read(path, graph=None):
    if not graph:
        raise Fault("%s: its graph is missing: `ninja -t graph > graph.dot`, and name graph.dot behind it" % path)
    log = Log(path)
    build = Build(log, Graph(graph))
    if not build.tasks:
        raise Fault("%s: no command of %s is in it" % (graph, path))
    notes = ["%d outputs of the log are not in the graph, and are left out" % build.left_out] * bool(build.left_out)
    return Imported("ninja", build.tasks, "" if log.is_of_one else SEVERAL, notes)
