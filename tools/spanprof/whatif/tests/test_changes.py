import unittest

from spanprof.program_text import as_text, statements
from spanprof.whatif.changes import DropDepend, DropName, DropWait, Factor, ReadOnly
from spanprof.whatif.tests.made_up import ROW, SORT, changed

# Tasks hold their neighbours' items to write; others write these next.
NEIGHBOURS = "omptasks 1\n" + "".join("task depend(%s) {  # a.c:%d\nwork 1\n}\n" % pair for pair in (
    ("inout: a, b, x", 3), ("inout: b, c, y", 3), ("in: x) depend(inout: a", 7), ("in: y) depend(inout: b", 7),
    ("inout: a, b, x", 3)))


class OneThing(unittest.TestCase):
    def test_a_factor(self):
        half = Factor("task at sort.c:8", 0.25)
        self.assertEqual(changed(SORT, half), "work 4 taskgroup { task { work 2 } work 1 task { work 5 task { work 6 } "
                                              "taskwait work 3 } work 2 } work 30")
        self.assertEqual(half.words(), "2 pieces of code changed: task at sort.c:8 times 0.25")

    def test_a_taskwait_is_dropped(self):
        drop = DropWait("taskwait at sort.c:10")
        self.assertIn("task { work 20 task { work 6 } taskgroup { } work 3 } work 2 }", changed(SORT, drop))
        self.assertEqual(drop.words(), "1 wait dropped: taskwait at sort.c:10")

    def test_a_group_is_dropped_with_its_end(self):
        drop = DropWait("taskgroup at sort.c:7")
        self.assertEqual(changed(SORT, drop), "work 4 task { work 10 } work 1 task { work 20 task { work 6 } taskwait "
                                              "work 3 } work 2 taskgroup { } work 30")
        self.assertEqual(drop.count, 1)

    def test_a_group_in_a_group_stays(self):
        text = "omptasks 1\ntaskgroup { # a\ntaskgroup { # b\nwork 1\n}\n}\nwork 2\n"
        self.assertEqual(changed(text, DropWait("taskgroup at a")), "taskgroup { work 1 } taskgroup { } work 2")
        self.assertEqual(changed(text, DropWait("taskgroup at b")), "taskgroup { work 1 taskgroup { } } work 2")

    def test_a_wait_is_dropped_once(self):
        once, again = DropWait("taskwait at sort.c:10"), DropWait("taskwait at sort.c:10")
        changed(SORT, once, again)
        self.assertEqual((once.count, again.count), (1, 0))
        text = as_text(once(statements(SORT.splitlines(True))))
        self.assertEqual(changed(text, again), changed(SORT, once))
        self.assertEqual(again.count, 0)

    def test_depend_items_of_a_place(self):
        drop = DropDepend("task at row.c:3")
        self.assertEqual(changed(ROW, drop), "task { work 5 } work 2 task { work 6 } work 1 task { work 7 } taskwait")
        self.assertEqual(drop.words(), "4 depend items dropped: task at row.c:3")

    def test_depend_items_of_a_name(self):
        drop = DropName("a")
        self.assertEqual(changed(ROW, drop), "task { work 5 } work 2 task depend(inout: b) { work 6 } work 1 "
                                             "task depend(in: b) { work 7 } taskwait")
        self.assertEqual(drop.words(), "2 depend items dropped: of the name a")

    def test_what_is_the_neighbours_too_is_only_read(self):
        read = ReadOnly("task at a.c:3")
        self.assertEqual(changed(NEIGHBOURS, read), " ".join("task depend(%s) { work 1 }" % items for items in (
            "inout: a) depend(in: b) depend(inout: x", "in: b) depend(inout: c, y", "in: x) depend(inout: a",
            "in: y) depend(inout: b", "inout: a) depend(in: b) depend(inout: x")))
        self.assertEqual(read.words(), "3 depend items changed to in: those that tasks share at task at a.c:3")

    def test_what_tasks_in_a_row_read_while_each_writes_an_item_of_its_own(self):
        def text(tasks):
            return "omptasks 1\n" + "".join("task depend(%s) {  # a.c:%d\nwork 1\n}\n" % pair for pair in tasks)
        read = ReadOnly("task at a.c:3")
        frames = (("inout: f", 2), ("inout: f, x", 3), ("inout: f, y", 3), ("inout: g", 2), ("inout: g, z", 3),
                  ("inout: g, u", 3))
        self.assertEqual(changed(text(frames), read), " ".join("task depend(%s) { work 1 }" % items for items in (
            "inout: f", "in: f) depend(inout: x", "in: f) depend(inout: y", "inout: g", "in: g) depend(inout: z",
            "in: g) depend(inout: u")))
        chains = (("inout: f", 3), ("inout: f", 3), ("inout: g", 3), ("inout: g", 3))
        sums = (("in: x) depend(inout: f", 3), ("in: y) depend(inout: f", 3), ("in: x) depend(inout: g", 3))
        sweeps = (("inout: f, x", 3), ("inout: g, y", 3), ("inout: f, x", 3), ("inout: g, y", 3))
        others = (("inout: f, x", 3), ("inout: f", 2), ("inout: f, y", 3))
        for tasks in (chains, sums, sweeps, others):
            changed(text(tasks), read)
            self.assertEqual(read.names, set())

    def test_changes_one_after_the_other_go_by_the_places_of_the_text(self):
        after = changed(SORT, DropWait("taskwait at sort.c:10"), Factor("after taskwait at sort.c:10", 2))
        self.assertIn("task { work 6 } taskgroup { } work 6 } work 2 }", after)


if __name__ == "__main__":
    unittest.main()
