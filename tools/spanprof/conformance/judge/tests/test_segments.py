"""Segments and rules, compared with the table of docs/MODEL.md by hand."""
import unittest

from spanprof.conformance.generate.program import segment_count
from spanprof.conformance.generate.text_reader import read_program
from spanprof.conformance.judge.segments import Need, Table, conflict


def table_of(text):
    return Table(read_program("omptasks 2\n" + text))


class Segments(unittest.TestCase):
    def test_worked_program(self):
        table = table_of("work 5 task { work 3 } work 2 taskwait work 1")
        self.assertEqual(table.cost, [5, 3, 2, 1])
        self.assertEqual([table.needs(s) for s in range(4)], [
            [],
            [Need(0, "creation", "task")],
            [Need(0, "order", "order")],
            [Need(2, "order", "order"), Need(1, "taskwait", "taskwait")]])

    def test_as_many_segments_as_are_counted(self):
        texts = ("", "taskwait", "for i 1 3 { task { taskwait } taskgroup { } }", "task { task { } } taskgroup { }")
        for text in texts:
            self.assertEqual(len(table_of(text).cost), 1 + segment_count(read_program("omptasks 2 " + text)))

    def test_undeferred_task(self):
        table = table_of("task if(0) { task { } } task final(1) { task { } }")
        self.assertIn(Need(3, "undeferred", "if(0)"), table.needs(4))
        self.assertIn(Need(6, "undeferred", "final"), table.needs(7))
        self.assertEqual(table.needs(8), [Need(4, "order", "order")])

    def test_group_waits_for_all_below_and_for_nothing_before(self):
        table = table_of("task { } taskgroup { task { task { } } }")
        self.assertEqual(table.needs(7), [
            Need(6, "order", "order"), Need(5, "taskgroup", "taskgroup"), Need(4, "taskgroup", "taskgroup")])

    def test_dependences_are_among_siblings(self):
        table = table_of("task depend(out: x) { task depend(in: x) { } } task depend(in: x) { } task depend(in: x) { }")
        self.assertIn(Need(3, "dependence", "out, then in"), table.needs(5))
        self.assertEqual(table.needs(2), [Need(1, "creation", "task")])
        self.assertEqual(table.need(5, 7), None)
        self.assertEqual(table.need(3, 7).rule, "dependence")

    def test_subscripts_in_loops(self):
        table = table_of("for i 0 2 { task depend(in: x[i-1]) depend(out: x[i]) { } }")
        self.assertEqual(table.tasks[2].items, (("in", "x[0]"), ("out", "x[1]")))
        self.assertEqual(table.need(1, 3).rule, "dependence")
        self.assertEqual(table.need(1, 5), None)

    def test_tasks_in_whose_place_others_run_count_as_untied(self):
        tied = {"task { #: detach\n task if(0) { } }": [True, False, True], "task { task if(0) { } }": 3 * [True],
                "task final(1) { task { #: detach\n task if(0) { } } }": 4 * [True],
                "for i 1 2 { #: taskloop grainsize(2)\n task { } }": [True, False, False],
                "taskgroup { #: taskloop num_tasks(1)\n for i 1 2 { task { } } }": [True, False, False],
                "taskgroup { #: taskloop reduction\n for i 1 2 { task { } } }": 3 * [True]}
        for text, wanted in tied.items():
            self.assertEqual([task.tied for task in table_of(text).tasks], wanted, text)

    def test_exclusive_locations(self):
        table = table_of("task depend(inoutset: a, b) depend(in: c) { #: mutexinoutset\n} task depend(inoutset: a) { }")
        self.assertEqual([task.exclusive for task in table.tasks], [frozenset(), {"a", "b"}, frozenset()])

    def test_conflicts(self):
        pairs = {("in", "in"): False, ("inoutset", "inoutset"): False, ("in", "inoutset"): True, ("out", "out"): True,
                 ("in", "out"): True, ("inout", "in"): True}
        for (first, then), wanted in pairs.items():
            self.assertEqual(bool(conflict(((first, "x"),), ((then, "x"),))), wanted, (first, then))
            self.assertIsNone(conflict(((first, "x"),), ((then, "y"),)))


if __name__ == "__main__":
    unittest.main()
