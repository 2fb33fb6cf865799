import unittest

from spanprof.whatif.requests import survey
from spanprof.whatif.tests.made_up import read

TASK = "task {\n  work 100\n}\n"
NESTED = "task {\n  work 100\n  task {\n    work 50\n  }\n}\n"


class Alone(unittest.TestCase):
    def alone(self, statements):
        return survey(read("omptasks 1\nwork 1\n" + statements)).alone["taskwait at a.c:3"]

    def test_right_behind_the_only_task(self):
        wait = "work 5\ntaskwait  # a.c:3\n"
        self.assertEqual(self.alone(TASK + wait), 1)
        self.assertEqual(self.alone(TASK + wait + NESTED + wait), 2)

    def test_behind_several_or_after_code_of_its_own(self):
        self.assertEqual(self.alone(TASK + TASK + "work 5\ntaskwait  # a.c:3\n"), 0)
        self.assertEqual(self.alone(TASK + "work 50\ntaskwait  # a.c:3\n"), 0)
        self.assertEqual(self.alone("taskwait  # a.c:3\n"), 0)


if __name__ == "__main__":
    unittest.main()
