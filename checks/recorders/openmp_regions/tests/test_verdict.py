import unittest

from toolchain import Run
from verdict import judge_fault, program_fault

TEXT = '# region: {"at": "region.c:3", "number": 1, "of": 1}\n# remark: %somptasks 1\n'
SAYS_SO = TEXT % '{"remark": "unfinished task", "times": 1}\n'


def run(works, text="omptasks 1\n", status=0):
    return Run(status, 1000, works, {"out": text}, "Aborted")


class FaultsOfTheProgram(unittest.TestCase):
    def test_none(self):
        self.assertEqual(program_fault(run(5), 5), "")

    def test_an_exit_status(self):
        self.assertIn("Aborted", program_fault(run(0, status=-6), 5))

    def test_works_that_are_not_done(self):
        self.assertIn("4 of the program's 5 works", program_fault(run(4), 5))

    def test_one_that_comes_without_the_recorder_is_the_runtimes(self):
        self.assertEqual(judge_fault("fault", run(4, SAYS_SO), lambda: run(4), 5)[0], "runtime")

    def test_one_that_does_not_is_the_recorders(self):
        self.assertEqual(judge_fault("fault", run(4, SAYS_SO), lambda: run(5), 5)[0], "wrong")

    def test_a_text_must_say_that_a_task_did_not_end(self):
        self.assertEqual(judge_fault("fault", run(4), lambda: run(4), 5)[0], "wrong")


if __name__ == "__main__":
    unittest.main()
