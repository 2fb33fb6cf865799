"""In tools/: python3 -m unittest discover -s spanprof/imports/tests -t ."""
import unittest

from spanprof.imports.folder import run_of, threads_of
from spanprof.imports.tasks import Task


def task(begin, end, *before, worker=None):
    return Task("%s to %s" % (begin, end), "", begin, end, worker, list(before))


class Run(unittest.TestCase):
    def test_times_of_both_segments_of_each_task(self):
        run, why = run_of([task(100, 104), task(101, 106), Task(before=[0, 1]), task(106, 107, 2)])
        self.assertEqual(why, "")
        self.assertEqual("".join(run.lines()), "times 2 0 7\n0 0 0 0\n1 0 0 4\n2 0 0 0\n3 1 1 6\n4 0 0 0\n"
                                               "5 1 6 6\n6 0 0 0\n7 1 6 7\n8 0 0 0\n")

    def test_workers_are_threads(self):
        run, _ = run_of([task(0, 1, worker="b"), task(1, 2, worker="a"), task(2, 3, worker="b")])
        self.assertEqual([row[0] for row in run.rows], [0, 1, 0])

    def test_a_thread_that_is_free(self):
        tasks = [task(0, 9), task(0, 5), task(5, 6), Task(before=[0]), task(7, 8), task(8, 20), task(8, 20)]
        self.assertEqual(threads_of(tasks), {0: 0, 1: 1, 2: 1, 4: 1, 5: 1, 6: 2})

    def test_as_few_threads_as_run_at_once(self):
        tasks = [task(n * 7 % 50, n * 7 % 50 + 1 + n * 11 % 23) for n in range(200)]
        most = max(sum(one.begin <= moment < one.end for one in tasks) for moment in range(80))
        self.assertEqual(max(threads_of(tasks).values()) + 1, most)

    def test_why_there_is_none(self):
        for tasks, why in (
                ([task(0, 5), task(4, 6, 0)], "4 to 6 begins before 0 to 5 has ended, for which it waits"),
                ([task(0, 5, worker=1), task(4, 6, worker=1)], "4 to 6 begins while 0 to 5 runs on its worker"),
                ([task(0, 5, worker=n) for n in range(1025)], "it has more than 1024 threads, or is longer"),
                ([task(0, 10 ** 15 + 1)], "it has more than 1024 threads, or is longer than 10^15 ns")):
            run, found = run_of(tasks)
            self.assertIsNone(run)
            self.assertTrue(found.startswith(why), found)

    def test_what_has_no_length_overlaps_nothing(self):
        self.assertEqual(run_of([task(0, 5, worker=1), task(3, 3, worker=1)])[1], "")


if __name__ == "__main__":
    unittest.main()
