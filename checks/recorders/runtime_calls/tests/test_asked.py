import unittest

import asked

CALLS = """region
part 0
task depend(inout: at_7f01) {
}
task depend(in: at_7f01) depend(in: at_7f02) {
}
taskwait
part 1
taskgroup {
task if(0) {
}
}
region
part 0
taskwait
outside
"""

TEXT = """# recorded: {"program": "mine"}
# region: {"at": "mine.c:3", "number": 1, "of": 1}
# remark: {"remark": "something", "times": 1, "at": "mine.c:3", "span": "low"}
omptasks 1
taskgroup {
 task {  # one of the region's threads
  work 5
  task depend(inout: a) {
  work 3
  }
  task depend(in: a, b) {
  }
  taskwait
 }
 task {  # one of the region's threads
  work 7
 }
}
taskgroup {
 task {  # one of the region's threads
  taskgroup {
   task if(0) {
   }
  }
 }
}
"""

REGION = (((("task", False, (("inout", 0),), ()), ("task", False, (("in", 0), ("in", 1)), ()), ("taskwait", ())),),
          ((("taskgroup", (("task", True, (), ()),)),),))


class Asked(unittest.TestCase):
    def test_calls_are_regions_with_tasks(self):
        self.assertEqual(asked.of_calls(CALLS), ([REGION], False))

    def test_tasks_outside_are_reported(self):
        self.assertEqual(asked.of_calls("outside\ntask {\n}\n"), ([], True))

    def test_a_text_is_the_same_region(self):
        self.assertEqual(asked.of_text(TEXT), (REGION, ["something, 1 time at mine.c:3: span too low"]))

    def test_parts_count_in_any_order(self):
        one, other = "part 0\ntask {\n}\n", "part 0\ntask if(0) {\n}\n"
        self.assertEqual(asked.of_calls("region\n" + one + other), asked.of_calls("region\n" + other + one))

    def test_names_count_among_siblings_alone(self):
        first = "region\npart 0\ntask {\ntask depend(in: x) {\n}\n}\ntask depend(in: y) {\n}\n"
        self.assertEqual(asked.of_calls(first), asked.of_calls(first.replace("y", "x")))
        self.assertNotEqual(asked.of_calls(first), asked.of_calls(first.replace("in: y", "inout: y")))

    def test_a_group_that_a_barrier_cuts(self):
        cut = "region\npart 0\ntaskgroup {\ntask {\n}\npart 1\n}\ntask {\n}\n"
        self.assertEqual(asked.tasks(asked.of_calls(cut)[0][0]), 2)

    def test_tasks_are_counted_at_every_depth(self):
        self.assertEqual(asked.tasks(REGION), 3)


if __name__ == "__main__":
    unittest.main()
