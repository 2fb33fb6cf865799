"""Tests of timing.py: python3 -m unittest bench/test_timing.py"""
import os
import pathlib
import sys
import unittest
from unittest import mock

sys.path.insert(0, str(pathlib.Path(__file__).resolve().parent))
import timing
from timing import TooSlow, best, best_in_turns, peak, run


def python(code):
    return [sys.executable, "-c", code]


class Processes(unittest.TestCase):
    def test_what_is_printed_and_the_status_come_back(self):
        reported, busy, wall = run(python("print('told'); raise SystemExit(1)"), os.devnull)
        self.assertEqual(reported, (1, b"told\n"))
        self.assertTrue(0 < busy and 0 < wall)

    def test_sleep_is_no_time_of_the_processor(self):
        _, busy, wall = run(python("import time; time.sleep(0.5)"), os.devnull)
        self.assertGreaterEqual(wall, 500)
        self.assertLess(busy, wall)

    def test_a_process_that_does_not_end(self):
        with mock.patch.object(timing, "TIMEOUT", 0.1), self.assertRaises(TooSlow):
            run(python("import time; time.sleep(60)"), os.devnull)

    def test_memory_is_reported_in_mebibytes(self):
        self.assertGreater(peak(python("held = bytearray(64 << 20)"), os.devnull), 64)


class Turns(unittest.TestCase):
    """Runs whose times stand in lists, the processor's and the wall's; a time of None is a run that is too slow."""

    def reported(self, times, column=0):
        left, self.ran = {name: list(rows) for name, rows in times.items()}, []

        def fake(words, _path):
            self.ran.append(words[0])
            taken = left[words[0]].pop(0)
            if taken is None:
                raise TooSlow
            return (words[0].upper(), *taken)

        with mock.patch.object(timing, "run", fake), mock.patch.object(timing, "RUNS", 3):
            return best_in_turns([[name] for name in times], "text", column)

    def test_the_least_of_each_and_in_turns(self):
        times = {"a": [(5, 9), (3, 8), (4, 7)], "b": [(6, 6), (7, 5), (8, 4)]}
        self.assertEqual(self.reported(times), [("A", 3), ("B", 6)])
        self.assertEqual(self.ran, ["a", "b"] * 3)
        self.assertEqual(self.reported(times, 1), [("A", 7), ("B", 4)])

    def test_what_takes_long_runs_once(self):
        self.assertEqual(self.reported({"a": [(6000, 1)], "b": [(2, 1), (1, 1), (3, 1)]}), [("A", 6000), ("B", 1)])
        self.assertEqual(self.ran, ["a", "b", "b", "b"])

    def test_what_is_too_slow_has_no_time(self):
        (reported, least), other = self.reported({"a": [None], "b": [(2, 1), (1, 1), (3, 1)]})
        self.assertEqual((reported, least, other), (None, float("inf"), ("B", 1)))
        self.assertEqual(self.ran, ["a", "b", "b", "b"])

    def test_one_run_that_is_too_slow_is_not_hidden_by_the_others(self):
        (reported, least), other = self.reported({"a": [(5, 9), None, (3, 8)], "b": [(2, 1), (1, 1), (3, 1)]})
        self.assertEqual((reported, least, other), (None, float("inf"), ("B", 1)))
        self.assertEqual(self.ran, ["a", "b", "a", "b", "b"])

    def test_alone_it_is_an_error(self):
        def slow(_words, _path):
            raise TooSlow

        with mock.patch.object(timing, "run", slow), self.assertRaises(TooSlow):
            best(["a"], "text", 0)


if __name__ == "__main__":
    unittest.main()
