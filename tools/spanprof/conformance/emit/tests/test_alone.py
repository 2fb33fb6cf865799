"""Programs as one C file that judges itself: what it looks at."""
import unittest

from spanprof.conformance.emit.alone import Alone, chunk_rows, exclusive_pairs, unconstrained_pairs
from spanprof.conformance.judge.segments import Table
from spanprof.conformance.tests.helpers import body_of

WAIT = "task { } taskwait"
PREDS = [[], [0], [0], [1, 2]]


def alone(text, preds=(), kind=""):
    body = body_of(text)
    table = Table(body)
    return Alone(body, table, preds or [[] for _ in table.cost], kind)


class Files(unittest.TestCase):
    def test_a_small_program_takes_sixty_lines(self):
        text = alone(WAIT, PREDS).text("head", 4)
        self.assertLessEqual(len(text.splitlines()), 60)
        self.assertTrue(text.startswith("/* head */\n#include <omp.h>\n"))
        self.assertIn('    {1, 3, "taskwait"}\n};\n', text)
        self.assertIn("segment_pass(3);", text)
        self.assertNotIn("@", text)
        self.assertNotIn("conformance", text)

    def test_what_is_expected_by_its_rules(self):
        self.assertEqual(len(alone(WAIT, PREDS).rules()), 1)
        self.assertIn("(OpenMP 5.2, 15.5)", alone(WAIT, PREDS).rules()[0])
        self.assertIn("the end of a region", alone("task { }").rules()[0])

    def test_teams(self):
        self.assertIn("#pragma omp taskgroup\n        program_root(THREADS);", alone(WAIT).text("", 2, "orphaned"))
        self.assertEqual(alone(WAIT).text("", 2, "nested").count("#pragma omp parallel"), 2)
        regions = alone("taskgroup { #: parallel\n task { } }").text("", 2)
        self.assertEqual(regions.count("#pragma omp parallel"), 1)

    def test_tasks_that_may_be_left_out(self):
        text = "taskgroup { task { } task { #: cancels\n } }"
        self.assertIn("if (ended[s] != begun[s])", alone(text).text("", 2))
        self.assertIn("if (!ended[s])", alone(text.replace("cancels", "mergeable")).text("", 2))
        preds = [[], [0], [0], [2], [1, 3, 4], []]
        self.assertEqual(alone(text, preds).waits, [])

    def test_tied_tasks_where_that_is_what_failed(self):
        self.assertIn("stays[] = {\n    {0, 2}, {0, 3}\n};", alone(WAIT, kind="moved").text("", 2))
        self.assertNotIn("stays", alone(WAIT).text("", 2))


class Pairs(unittest.TestCase):
    def test_tasks_that_exclude_one_another(self):
        text = "task depend(inoutset: x) { #: mutexinoutset\n } task depend(inoutset: x) { #: mutexinoutset\n }"
        self.assertEqual(exclusive_pairs(Table(body_of(text))), [(1, 1, 3), (3, 3, 1)])

    def test_tasks_that_may_not_begin_in_a_wait(self):
        found = unconstrained_pairs(Table(body_of("task { task { } taskwait } task { }")))
        self.assertIn((1, 4, 6), found)     # the second task, while the first one waits
        self.assertNotIn((1, 4, 2), found)  # its own child

    def test_iterations_of_tasks(self):
        def rows(clause):
            return list(chunk_rows(Table(body_of("taskgroup { #: taskloop " + clause + "\n for i 1 7 { task { } } }"))))
        self.assertEqual(rows("num_tasks(3)"), [(1, 2, 7, 6, 3, 1, 7)])
        self.assertEqual(rows("num_tasks(strict:3)"), [(1, 2, 7, 6, 3, 2, 3)])
        self.assertEqual(rows("grainsize(3)"), [(1, 2, 7, 6, 0, 3, 5)])
        self.assertEqual(rows("grainsize(strict:3)"), [(1, 2, 7, 6, 0, 3, 3)])


if __name__ == "__main__":
    unittest.main()
