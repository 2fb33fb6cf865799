import unittest

from spanprof.whatif.changes import Rename, written
from spanprof.whatif.tests.made_up import changed, read

RING = """omptasks 1
task depend(inout: a) {  # m.c:3
}
task depend(in: a) depend(inout: b) {  # m.c:5
}
task depend(inout: a) {  # m.c:7
}
task depend(inout: a) {  # m.c:3
}
task depend(in: a) depend(inout: b) {  # m.c:5
}
task depend(inout: a) {  # m.c:7
}
"""
OUT = """omptasks 1
task depend(out: a) depend(inout: sum) {  # m.c:3
}
task depend(out: a) depend(inout: sum) {  # m.c:3
}
"""
INSIDE = """omptasks 1
task {  # m.c:2
task depend(inout: a) {  # m.c:3
}
}
task {  # m.c:2
task depend(inout: a) {  # m.c:3
}
}
"""


class Renames(unittest.TestCase):
    def test_what_comes_behind_has_the_newest(self):
        change = Rename("task at m.c:3")
        self.assertEqual(changed(RING, change), " ".join((
            "task depend(inout: a) { } task depend(in: a) depend(inout: b) { } task depend(inout: a) { }",
            "task depend(inout: a_1) { } task depend(in: a_1) depend(inout: b) { } task depend(inout: a_1) { }")))
        self.assertEqual(change.words(), "1 depend item renamed: task at m.c:3")

    def test_two_places(self):
        self.assertIn("task depend(inout: a_1) { } task depend(in: a_1) depend(inout: b_1) { }",
                      changed(RING, Rename("task at m.c:3"), Rename("task at m.c:5")))

    def test_out_alone_where_a_text_has_it(self):
        self.assertTrue(changed(OUT, Rename("task at m.c:3")).endswith("depend(out: a_1) depend(inout: sum) { }"))

    def test_one_name_alone(self):
        task = read("omptasks 1\ntask depend(inout: a, b) { }\n")[0]
        self.assertEqual((written(task, "b"), written(task, "c")), ({"b"}, set()))

    def test_no_name_that_the_text_has(self):
        text = RING.replace("b", "a_1")
        self.assertIn("task depend(in: a_2) depend(inout: a_1)", changed(text, Rename("task at m.c:3")))

    def test_long_names_stay_names(self):
        long = "a" * 31
        self.assertIn("depend(inout: %s_1)" % long[:20], changed(RING.replace(": a)", ": %s)" % long),
                                                                 Rename("task at m.c:3")))

    def test_children_of_other_tasks_have_nothing_behind_them(self):
        change = Rename("task at m.c:3")
        changed(INSIDE, change)
        self.assertEqual(change.count, 0)

    def test_what_a_task_reads_too(self):
        task = read("omptasks 1\ntask depend(in: a) depend(inout: a, b) { }\n")[0]
        self.assertEqual(written(task), {"b"})


if __name__ == "__main__":
    unittest.main()
