"""In tools/: python3 -m unittest discover -s spanprof/imports/tests -t ."""
import unittest

from spanprof.command import Fault
from spanprof.imports.ninja import SEVERAL, read
from spanprof.tests.in_folder import InFolder

LOG = "# ninja log v%d\n0\t2\t0\tt.h\taa\n0\t3\t0\tb.o\tbb\n2\t5\t0\ta.o\tcc\n" \
    "5\t6\t0\tmine\tdd\n5\t6\t0\tmine.map\tdd\n"
GRAPH = """digraph ninja {
rankdir="LR"
node [fontsize=10, shape=box, height=0.25]
"m" [label="mine"]
"link" [label="link", shape=ellipse]
"link" -> "m"
"link" -> "map"
"a" -> "link" [arrowhead=none]
"b" -> "link" [arrowhead=none]
"a" [label="a.o"]
"cc" [label="cc", shape=ellipse]
"cc" -> "a"
"ac" -> "cc" [arrowhead=none]
"all" -> "cc" [arrowhead=none style=dotted]
"ac" [label="a.c"]
"all" [label="headers"]
"phony" [label="phony", shape=ellipse]
"phony" -> "all"
"t" -> "phony" [arrowhead=none]
"b" -> "phony" [arrowhead=none]
"t" [label="t.h"]
"tc" -> "t" [label=" gen"]
"tc" [label="t.txt"]
"bc" -> "b" [label=" cc"]
"b" [label="b.o"]
"bc" [label="b.c"]
}
"""


class Ninja(InFolder):
    def read(self, log=LOG % 5, graph=GRAPH):
        return read(self.write("log", log), self.write("graph.dot", graph))

    def test_commands_with_what_they_need(self):
        for version in (5, 6, 7):
            reported = self.read(LOG % version)
            self.assertEqual([(one.name, one.begin, one.end, one.before) for one in reported.tasks], [
                ("mine", 5000000, 6000000, [1, 3]), ("a.o", 2000000, 5000000, [4]), ("t.h", 0, 2000000, []),
                ("b.o", 0, 3000000, []), ("headers", None, None, [2, 3])])
            self.assertEqual((reported.tool, reported.no_times, reported.notes), ("ninja", "", []))

    def test_a_file_that_is_not_there_yet(self):
        reported = self.read((LOG % 5).replace("\ta.o\t", "\told.o\t"))
        self.assertEqual([(one.name, one.before) for one in reported.tasks],
                         [("mine", [2, 3]), ("t.h", []), ("b.o", []), ("headers", [1, 2])])
        self.assertEqual(reported.notes, ["1 outputs of the log are not in the graph, and are left out"])

    def test_of_several_builds_there_are_the_last_costs_and_no_times(self):
        reported = self.read(LOG % 5 + "0\t8\t0\ta.o\tcc\n")
        self.assertEqual((reported.tasks[1].cost, reported.no_times), (8000000, SEVERAL))
        self.assertEqual(self.read(LOG % 5 + "0\t1\t0\told.o\tcc\n").no_times, SEVERAL)

    def test_faults_name_the_line(self):
        for log, graph, words in (
                ("# ninja log v4\n", GRAPH, "log:1: no log of ninja of versions 5 to 7"),
                (LOG % 5 + "1\t2\n", GRAPH, "log:7: not the times, output and checksum of a command"),
                (LOG % 5 + "1\tx\t0\tz\tz\n", GRAPH, "log:7: not the times"),
                ((LOG % 5).replace("0\t3", "-3\t3"), GRAPH, "log:3: b.o begins at a negative time"),
                ((LOG % 5).replace("2\t5", "7\t5"), GRAPH, "log:4: a.o ends before it begins"),
                (LOG % 5, GRAPH.replace('"b" [', '"c" ['), "graph.dot:9: an arrow from b, which has no label"),
                (LOG % 5, GRAPH.replace('"tc" -> "t"', '"all" -> "t"').replace("t.h", "u.h"),
                 "graph.dot: a cycle at headers"),
                (LOG % 5, "", "graph.dot: no command of .*log is in it")):
            with self.assertRaisesRegex(Fault, words):
                self.read(log, graph)
        with self.assertRaisesRegex(Fault, "its graph is missing: `ninja -t graph > graph.dot`"):
            read(self.write("log", LOG % 5))


if __name__ == "__main__":
    unittest.main()
