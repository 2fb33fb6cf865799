"""In tools/: python3 -m unittest discover -s spanprof/imports/tests -t ."""
import unittest

from spanprof.head import read_head
from spanprof.imports.folder import body, head, unit_of
from spanprof.imports.tasks import Task

TASKS = [Task("a \t\n.o", "", 0, 7), Task(before=[0]), Task("b", "", 7, 12, before=[0, 1])]
TEXT = """omptasks 1
task depend(out: t0) {  # a .o
work 7
}
task depend(out: t1) depend(in: t0) {
}
task depend(in: t0, t1) {  # b
work 5
}
"""


class Texts(unittest.TestCase):
    def test_tasks_and_items(self):
        self.assertEqual("".join(body(TASKS, "ns")), TEXT)

    def test_the_head_is_that_of_a_region(self):
        found = read_head("".join(head("mine", "mine.log", "2026-11-29T00:10:02Z", "us", 4, 5000)) + TEXT)
        self.assertEqual((found.program, found.region, found.threads, found.elapsed, found.unit, found.remarks),
                         ("mine", "mine.log", 4, 5, "us", []))
        self.assertIsNone(read_head("".join(head("mine", "mine.log", "", "ns"))).threads)

    def test_the_unit_keeps_numbers_within_the_limits(self):
        for costs, unit in (((10 ** 12,), "ns"), ((10 ** 12 + 1,), "us"), ((10 ** 12,) * 1000, "ns"),
                            ((10 ** 12,) * 1001, "us"), ((10 ** 16,), "ms"), ((), "ns")):
            self.assertEqual(unit_of([Task("a", "", 0, cost) for cost in costs]), unit)


if __name__ == "__main__":
    unittest.main()
