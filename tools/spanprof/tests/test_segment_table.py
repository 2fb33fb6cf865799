import unittest

from spanprof.command import Fault
from spanprof.segment_table import read_code

TEXT = """omptasks 1
work 7
task depend(inout: x) {  # a.c:3
  work 5
  taskwait  # a.c:5
  work 6
}
taskgroup {  # a.c:8
  task {  # one of the region's threads
    work 1
  }
}
work 4
"""


class OfAText(unittest.TestCase):
    def test_it_has_the_segments(self):
        code = read_code(TEXT.splitlines(True), "a.tasks")
        self.assertEqual([(one.task, one.cost) for one in code], [
            (0, 7), (1, 5), (1, 6), (0, 0), (2, 1), (0, 0), (0, 4)])
        self.assertEqual(list(code.places), [
            "the beginning", "task at a.c:3", "after taskwait at a.c:5", "after creating a task at a.c:3",
            "code of one of the region's threads", "starting one of the region's threads",
            "after the barrier of the region at a.c:8"])
        self.assertEqual((list(code.firsts()), code.parts()), ([0, 1, 4], 1))

    def test_what_is_no_text(self):
        for text in ("omptasks 1\n}\n", "omptasks 2\nfor i 1 2 { }\n", "omptasks 1\nwork x\n",
                     "omptasks 1\nwork 9999999999999999999\n"):
            with self.assertRaisesRegex(Fault, "a.tasks is not a text of version 1"):
                read_code(text.splitlines(True), "a.tasks")


if __name__ == "__main__":
    unittest.main()
