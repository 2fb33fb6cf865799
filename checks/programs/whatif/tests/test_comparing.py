import os
import sys
import unittest

TOOLS = os.path.join(os.path.dirname(os.path.abspath(__file__)), "..", "..", "..", "..", "tools")
sys.path.insert(0, TOOLS)

from comparing import Ends, ends, first_difference, largest, least, shape, work
from spanprof.program_text import statements

TEXT = "omptasks 1\nwork 3\ntask depend(in: b) depend(out: a) { # x.c:3\nwork 5\n}\ntaskwait\n"


def read(text):
    return statements(text.splitlines(True))


class Numbers(unittest.TestCase):
    def test_a_twentieth(self):
        self.assertFalse(Ends(4, 100, 105, 100).fault)
        self.assertEqual(Ends(4, 120, 94, 100).fault, "on 4 threads 120, 94 predicted, 100 rewritten (-6.0 %)")

    def test_a_machine_that_moves_all_costs(self):
        moved = Ends(4, 120, 110, 100, 0.92)
        self.assertFalse(moved.fault)
        self.assertEqual(str(moved),
                         "120, 110 predicted, 100 rewritten (+10.0 %, work / end -1.2 %: the work is -8.0 %)")
        self.assertTrue(Ends(4, 120, 110, 100, 1.02).fault)
        self.assertFalse(Ends(4, 120, 103, 100, 0.92).is_by_gain)

    def test_which_they_are(self):
        numbers = [{"work": 20, "threads": {"4": {"end": end}}} for end in (9, 8, 7)]
        self.assertEqual(ends({"text": numbers[0], "changed text": numbers[1]}, numbers[2], 4), Ends(4, 9, 8, 7))

    def test_the_work(self):
        self.assertEqual(work(read(TEXT)), 8)

    def test_the_least_of_several_runs(self):
        other = TEXT.replace("work 3", "work 1").replace("work 5", "work 9").replace("taskwait", "work 2\ntaskwait")
        runs = [list(read(text)) for text in (TEXT, other)]
        self.assertEqual([one.cost for one in least(runs) if one.kind == "work"], [1, 5])
        self.assertEqual(list(shape(least(runs))), list(shape(runs[0])))
        runs.append(list(read(TEXT + "taskwait\n")))
        self.assertEqual(least(runs), runs[0])

    def test_the_largest_piece(self):
        self.assertEqual(largest(read(TEXT + "task { # x.c:3\nwork 7\n}\n"), "task at x.c:3"), 7)


class Shapes(unittest.TestCase):
    def test_costs_places_and_names_do_not_count(self):
        other = "omptasks 1 task depend(in: n0) depend(out: n1) { work 9 } taskwait work 1"
        self.assertEqual(first_difference(shape(read(TEXT)), shape(read(other))), "")

    def test_all_else_does(self):
        for other in (TEXT.replace("taskwait", ""), TEXT.replace("out: a", "out: b"),
                      TEXT.replace("task d", "task if(0) d"), TEXT.replace("in: b", "out: b"), TEXT + "taskwait"):
            self.assertTrue(first_difference(shape(read(TEXT)), shape(read(other))), other)


if __name__ == "__main__":
    unittest.main()
