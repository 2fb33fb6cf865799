import unittest

from spanprof.program_text import as_text, statements
from spanprof.whatif.changes import Cutoff, DropWait, Grain, Join, OwnTask, Split
from spanprof.whatif.tests.made_up import LOOPS, ROW, SORT, changed

ROWS = "omptasks 1\n" + "".join("work 3\ntask { # a\nwork %d\n}\n" % cost for cost in (10, 20, 30, 40, 50))
TREE = "omptasks 1 work 1 task { work 2 task { work 3 } work 4 task { work 5 task { work 6 } } taskwait work 7 } work 8"


class More(unittest.TestCase):
    def test_a_split(self):
        split = Split("after taskgroup at sort.c:7", 4, 1, 0)
        self.assertTrue(changed(SORT, split).endswith(
            "work 2 } taskgroup { work 1 task { work 8 } work 1 task { work 8 } work 1 task { work 7 } work 1 "
            "task { work 7 } }"))
        self.assertEqual(split.words(), "1 piece of code split: after taskgroup at sort.c:7 in 4 tasks each, where it "
                                        "costs 4 or more")

    def test_the_parts_have_a_place(self):
        stream = Split("after taskgroup at sort.c:7", 2, 0, 0)(statements(SORT.splitlines(True)))
        self.assertIn("task {  # sort.c:7, a part\n", as_text(stream).splitlines(True))

    def test_the_parts_of_a_place_with_callers(self):
        text = "omptasks 1\ntask {  # b.c:6 called from f at b.c:10\nwork 9\n}\n"
        split = Split("task at b.c:6 called from f at b.c:10", 2, 0, 0)
        self.assertIn("task {  # b.c:6 called from f at b.c:10, a part\n",
                      as_text(split(statements(text.splitlines(True)))).splitlines(True))

    def test_what_costs_less_stays_whole(self):
        split = Split("task at sort.c:8", 2, 0, 11)
        self.assertIn("task { work 10 } work 1 task { taskgroup { task { work 10 } task { work 10 } } task",
                      changed(SORT, split))
        self.assertEqual(split.count, 1)

    def test_a_grain(self):
        grain = Grain("task at sort.c:8", 9, 0, 0)
        self.assertIn("taskgroup { task { work 5 } task { work 5 } } } work 1 task { taskgroup { task { work 7 } "
                      "task { work 7 } task { work 6 } } task", changed(SORT, grain))
        self.assertEqual(grain.words(), "2 pieces of code split: task at sort.c:8 in tasks that cost 9 at most")

    def test_a_piece_of_code_as_a_task(self):
        own = OwnTask("task at sort.c:8", 2, 15)
        self.assertIn("task { work 10 } work 1 task { work 2 task { work 20 } task { work 6 } taskwait work 3 }",
                      changed(SORT, own))
        self.assertEqual(own.words(), "1 piece of code made a task: task at sort.c:8")


class Fewer(unittest.TestCase):
    def test_a_cutoff(self):
        cutoff = Cutoff(1, 0)
        self.assertEqual(changed(TREE, cutoff), "work 1 task { work 27 } work 8")
        self.assertEqual(cutoff.words(), "3 tasks left out: those below depth 1")
        self.assertEqual(changed(TREE, Cutoff(2, 0)), "work 1 task { work 2 task { work 3 } work 4 task { work 11 } "
                                                      "taskwait work 7 } work 8")

    def test_what_is_not_created_costs_less(self):
        self.assertEqual(changed(TREE, Cutoff(1, 3)), "work 1 task { work %d } work 8" % (27 - 2 - 3 - 3))

    def test_what_threads_share_stays_below_a_cutoff(self):
        loop = "taskgroup { task depend(in: a) { work 10 } task { work 20 } } "
        sections = "taskgroup { task { work 30 } } "
        thread = "work 4 taskgroup { task depend(out: a) { "
        one, two = Cutoff(1, 0), Cutoff(2, 0)
        self.assertEqual(changed(LOOPS, one), thread + loop + "work 9 " + sections + "} }")
        self.assertEqual(changed(LOOPS, two), thread + loop + "task { work 9 } " + sections + "} }")
        self.assertEqual((one.count, two.count), (2, 1))

    def test_a_group_below_a_cutoff(self):
        self.assertEqual(changed("omptasks 1 task { taskgroup { task { work 2 } work 3 } } work 1", Cutoff(1, 0)),
                         "task { work 5 } work 1")

    def test_neighbours_are_joined(self):
        join = Join("task at a", 2, 0)
        self.assertEqual(changed(ROWS, join), "work 3 task { work 30 } work 6 task { work 70 } work 6 task { work 50 }")
        self.assertEqual(join.words(), "2 tasks left out: task at a, joined by 2")

    def test_fewer_creations_cost_less(self):
        self.assertEqual(changed(ROWS, Join("task at a", 5, 2)), "work 3 task { work 150 } work 4")

    def test_a_wait_between_keeps_them_apart(self):
        text = ROWS.replace("work 3\n", "taskwait\n")
        self.assertEqual(changed(text, Join("task at a", 2, 0)), changed(text))

    def test_a_dropped_wait_does_not(self):
        text = ROWS.replace("work 3\n", "taskwait # x\n")
        drop, join = DropWait("taskwait at x"), Join("task at a", 2, 0)
        self.assertEqual(changed(text, drop, join), changed(text.replace("taskwait", ""), join))

    def test_they_have_the_items_of_them_all(self):
        self.assertEqual(changed(ROW, Join("task at row.c:3", 3, 0)),
                         "task depend(out: a) depend(in: a) depend(inout: b) depend(in: b) { work 18 } work 3 taskwait")

    def test_what_they_have_inside_stays(self):
        text = "omptasks 1 task { # a\nwork 1 task { # a\n work 2 } task { # a\n work 3 } taskwait } task { # b\n } " \
            "task { # a\n work 4 } task { # a\n work 5 task { # b\n} }"
        self.assertEqual(changed(text, Join("task at a", 2, 0)),
                         "task { work 1 task { work 5 } taskwait } task { } task { work 9 task { } }")

    def test_an_undeferred_task_joins_none_that_is_not(self):
        text = "omptasks 1 task { # a\n } task if(0) { # a\n } task if(0) { # a\n }"
        self.assertEqual(changed(text, Join("task at a", 3, 0)), "task { } task if(0) { }")


if __name__ == "__main__":
    unittest.main()
