"""In tools/: python3 -m unittest discover -s spanprof/graph/tests -t ."""
import os
import unittest
from unittest import mock

from spanprof.graph.command import lines, main
from spanprof.tests.in_folder import InFolder, answered

TABLE = "segment,task,cost,predecessors\n0,0,5,\n1,1,3,0\n2,0,2,0\n3,0,1,1 2\n"
PROGRAM = """#!/bin/sh
cat > /dev/null
case ${1:-span} in
    graph) printf '%s' ;;
    slack) printf 'segment,task,cost,start,slack,chain\\n0,0,5,0,0,1\\n1,1,3,5,0,1\\n2,0,2,5,1,0\\n3,0,1,8,0,1\\n' ;;
    span) printf 'tasks 1\\nsegments 4\\nwork 11\\nspan 9\\n' ;;
esac
""" % TABLE.replace("\n", "\\n")
TEXT = "omptasks 1\nwork 5\ntask {  # a.c:3\nwork 3\n}\nwork 2\ntaskwait\nwork 1\n"


class Dot(unittest.TestCase):
    def test_boxes_and_arrows(self):
        reported = list(lines([(0, "the beginning", 5, []), (1, 'task at "a".c:3', 3, [0]), (0, "after", 2, [0])],
                              [0, 1]))
        self.assertEqual(reported[0], "digraph spanprof {")
        self.assertEqual(reported[3:], [
            '  s0 [label="0: the beginning\\n5", color=red, penwidth=2];',
            '  s1 [label="1: task at \\"a\\".c:3\\n3", color=red, penwidth=2];',
            "  s0 -> s1 [color=red, penwidth=2];",
            '  s2 [label="2: after\\n2"];',
            "  s0 -> s2;",
            "}"])

    def test_what_the_root_does_at_no_cost_before_all_else_is_left_out(self):
        reported = list(lines([(0, "the beginning", 0, []), (1, "a", 0, [0]), (0, "after", 0, [0]), (2, "b", 3, [1, 2]),
                               (0, "after a taskwait", 0, [2, 3])], [0, 1, 3]))
        self.assertEqual(reported[3:], ['  s1 [label="1: a\\n0", color=red, penwidth=2];',
                                        '  s3 [label="3: b\\n3", color=red, penwidth=2];',
                                        "  s1 -> s3 [color=red, penwidth=2];",
                                        '  s4 [label="4: after a taskwait\\n0"];', "  s3 -> s4;", "}"])


class Command(InFolder):
    def reported(self, *words):
        with mock.patch("signal.signal"):
            return answered(main, [*words, self.write("mine.tasks", TEXT)],
                            SPANPROF_LARGE=self.program("program", PROGRAM))[1]

    def test_a_table(self):
        self.assertEqual(self.reported(), TABLE)

    def test_for_graphviz(self):
        reported = self.reported("--dot")
        self.assertIn('  s1 [label="1: task at a.c:3\\n3", color=red, penwidth=2];\n  s0 -> s1 [color=red', reported)
        self.assertIn("  s1 -> s3 [color=red, penwidth=2];\n  s2 -> s3;\n}", reported)

    def test_into_a_file(self):
        path = os.path.join(self.folder, "graph.csv")
        self.assertEqual(self.reported("-o", path), "")
        with open(path, encoding="utf-8") as file:
            self.assertEqual(file.read(), TABLE)


if __name__ == "__main__":
    unittest.main()
