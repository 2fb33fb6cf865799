import unittest

from spanprof.diagnosis.changes import single
from spanprof.diagnosis.diagnose import Step, as_scheduled, scheduled_end
from spanprof.diagnosis.tests.worked import MS, facts

SMALL = "  task {\n    work 10\n  }\n"
FEW_WAIT = "omptasks 1\ntask {\n%s  taskwait\n}\ntask {\n  work 100\n}\ntaskwait\n" % (40 * SMALL)
ALL_AT_ONCE = FEW_WAIT.replace("task {", "task if(0) {")


class Bench:
    unit = 1000

    def has_time(self):
        return True

    def text_with(self, requests):
        return FEW_WAIT if requests else ALL_AT_ONCE


class RuntimeSchedules(unittest.TestCase):
    """A thread that waits for two tasks has ended one of them; of the other only gcc's runtime keeps it from the small
    tasks."""

    def run_of(self, runtime):
        return facts(runtime=runtime, threads=2, asked=2)

    def test_a_thread_that_waits_begins_few_tasks(self):
        self.assertEqual(scheduled_end(FEW_WAIT, 1000, self.run_of("LLVM 19")), 250000)
        self.assertGreater(scheduled_end(FEW_WAIT, 1000, self.run_of("gcc 12")), 400000)

    def after(self, runtime, kind="defer"):
        step = as_scheduled(self.run_of(runtime), Bench(), Step("undeferred", "a", 100 * MS, 50 * MS, 42 * MS, 58 * MS,
                                                                change=single(kind, "a")))
        return step.low // MS, step.after // MS, step.high // MS, step.is_between

    def test_a_time_lies_between_a_greedy_run_and_that_of_the_runtime(self):
        self.assertEqual(self.after("LLVM 19"), (42, 50, 58, False))
        self.assertEqual(self.after("gcc 12"), (50, 66, 83, True))
        self.assertEqual(self.after("gcc 12", "task"), (42, 50, 58, False))


if __name__ == "__main__":
    unittest.main()
