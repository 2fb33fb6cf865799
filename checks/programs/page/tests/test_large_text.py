import re
import unittest

from large_text import TASKS, WORKERS, run, text


class Limits(unittest.TestCase):
    def test_as_many_tasks_as_spanprof_takes(self):
        self.assertEqual(len(re.findall(r"(?m)^task ", text())), 4096)

    def test_each_segment_runs_once(self):
        self.assertEqual(sorted(s for s, _, _, _ in run()), list(range(2 * TASKS + 1)))

    def test_no_worker_does_two_things_at_once(self):
        free = [0] * WORKERS
        for _, worker, start, end in run():
            self.assertLessEqual(free[worker], start)
            free[worker] = end
