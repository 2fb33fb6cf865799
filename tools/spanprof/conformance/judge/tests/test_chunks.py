"""How many turns the tasks of a taskloop have."""
import unittest

from spanprof.conformance.judge.chunks import Taskloop, clause_of, rule_of, wrong_chunks, wrong_grains, wrong_number
from spanprof.conformance.run.launch import Log
from spanprof.conformance.judge.segments import Table
from spanprof.conformance.tests.helpers import body_of

UP = "for i 0 2 { #: taskloop grainsize(strict:2)\n task { } }"     # segments 1, 3 and 5
DOWN = "for i 1 4 { #: taskloop grainsize(strict:3)\n task { } }"   # segments 1, 3, 5 and 7, the last one first


def reported(text, *turns):
    return wrong_chunks(Table(body_of(text)), Log(0, turns=[list(turn) for turn in turns]))


class Sizes(unittest.TestCase):
    def test_clauses(self):
        self.assertEqual(clause_of("grainsize(3)"), ("grainsize", 3, False))
        self.assertEqual(clause_of("num_tasks(strict:12)"), ("num_tasks", 12, True))

    def test_grains(self):
        for sizes in ([3, 3], [4, 3], [5], [3]):
            self.assertEqual(wrong_grains(sizes, 3, False), "", sizes)
        self.assertEqual(wrong_grains([2], 3, False), "")
        self.assertEqual(wrong_grains([3, 2], 3, False), "has 2 turns and not 3 to 5")
        self.assertEqual(wrong_grains([6], 3, False), "has 6 turns and not 3 to 5")

    def test_strict_grains(self):
        for sizes in ([3, 3], [3, 1], [2]):
            self.assertEqual(wrong_grains(sizes, 3, True), "", sizes)
        self.assertEqual(wrong_grains([4, 3], 3, True), "has 4 turns and not 3")
        self.assertEqual(wrong_grains([1, 3], 3, True), "has 1 turns and not 3")
        self.assertEqual(wrong_grains([4], 3, True), "has 4 turns and not 3")

    def test_numbers(self):
        for sizes in ([2, 2, 1], [1, 1, 3], [1, 1, 1]):
            self.assertEqual(wrong_number(sizes, 3, False), "", sizes)
        self.assertEqual(wrong_number([1, 1], 3, False), "")
        self.assertEqual(wrong_number([3, 2], 3, False), "is one of 2 and not of 3")

    def test_strict_numbers(self):
        self.assertEqual(wrong_number([3, 3, 2], 3, True), "")
        self.assertEqual(wrong_number([3, 2, 2], 3, True), "")
        self.assertEqual(wrong_number([2, 3, 2], 3, True), "has 2 turns and not 3")


class Logs(unittest.TestCase):
    def test_turns_of_each_task(self):
        self.assertIsNone(reported(UP, (1, 1), (3, 1), (5, 5)))
        words = reported(UP, (1, 1), (3, 3), (5, 3))
        self.assertIn("`grainsize(strict:2)` whose first turn is segment 1", words)
        self.assertTrue(words.endswith("has tasks of 1, 2 turns: one has 1 turns and not 2"), words)
        self.assertEqual(rule_of(words), "grainsize(strict)")

    def test_each_kind_of_clause_is_reported_once(self):
        words = reported(f"{UP} {UP} {UP.replace('strict:', '')}", *[(turn, 1) for turn in (1, 3, 5)],
                         *[(turn, 7) for turn in (7, 9, 11)], (13, 13), (15, 15), (17, 17))
        self.assertEqual(rule_of(words), "grainsize(strict), grainsize")

    def test_a_loop_that_counts_down(self):
        self.assertIsNone(reported(DOWN, (7, 7), (5, 7), (3, 7), (1, 1)))
        self.assertIn("first turn is segment 7", reported(DOWN, (7, 7), (5, 5), (3, 5), (1, 5)))

    def test_turns_that_are_not_reported(self):
        self.assertIsNone(reported(UP))
        self.assertIsNone(reported(UP, (1, 1), (3, 3)))

    def test_taskloops_of_a_program(self):
        table = Table(body_of("for k 1 2 { taskgroup { #: taskloop num_tasks(2)\n for i 0 2 { task { } } } }"
                              "for i 0 2 { #: taskloop\n task { } } for i 0 2 { #: taskloop any\n task { } }"
                              "task final(1) { for i 0 2 { #: taskloop grainsize(2)\n task { } } }"))
        self.assertEqual(table.taskloops, [Taskloop("num_tasks(2)", (1, 3, 5)), Taskloop("num_tasks(2)", (8, 10, 12))])


if __name__ == "__main__":
    unittest.main()
