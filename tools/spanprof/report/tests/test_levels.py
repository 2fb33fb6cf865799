import os
import tempfile
import unittest

from spanprof.report.tests import worked
from spanprof.report.timeline import DIGITS, Levels, bins_for, levels_data, levels_in, levels_of_greedy


class Bins(unittest.TestCase):
    def digits(self, levels, thread=0):
        words = levels.words_of(thread)
        return [(DIGITS.index(words[i]), words[i + 1]) for i in range(0, len(words), 2)]

    def test_how_busy_and_with_what(self):
        levels = Levels(2, 40, bins=4)
        levels.add(0, 0, 10, 3)
        levels.add(0, 10, 12, 1)
        levels.add(0, 12, 18, 2)
        levels.add(0, 25, 40, 1)
        self.assertEqual(self.digits(levels), [(35, "3"), (28, "2"), (18, "1"), (35, "1")])
        self.assertEqual(self.digits(levels, 1), [(0, "0")] * 4)

    def test_a_bin_is_a_whole_number(self):
        levels = Levels(1, 10, bins=4)
        levels.add(0, 2, 10, 0)
        self.assertEqual((levels.width, levels.bins, sum(levels.busy)), (3, 4, 8))
        self.assertEqual([busy for busy, _ in self.digits(levels)], [12, 35, 35, 12])

    def test_what_takes_no_time_is_on_no_thread(self):
        levels = Levels(2, 12, bins=4)
        levels.add_all([0, -1, -1, 1, 1], [0, 0, 12, 2, 12], [3, 0, 12, 7, 12], [0, 7, 7, 1, 7])
        self.assertEqual(self.digits(levels), [(35, "0")] + [(0, "0")] * 3)
        self.assertEqual(self.digits(levels, 1), [(12, "1"), (35, "1"), (12, "1"), (0, "0")])

    def test_the_least_stays_seen(self):
        levels = Levels(1, 10000, bins=2)
        levels.add(0, 0, 1, 5)
        self.assertEqual(self.digits(levels)[0], (1, "5"))

    def test_many_threads_have_fewer_bins(self):
        self.assertEqual([bins_for(threads) for threads in (1, 4, 64, 1024)], [32768, 32768, 16384, 1024])

    def test_for_the_script(self):
        self.assertEqual(Levels(1, 3000, bins=1).data(1000),
                         {"end": 3.0, "bins": 1, "wide": 3.0, "count": 1, "rows": ["00"]})


class Times(unittest.TestCase):
    def setUp(self):
        self.folder = tempfile.TemporaryDirectory()
        self.addCleanup(self.folder.cleanup)
        self.view = worked.view("split")

    def levels(self, *lines):
        path = os.path.join(self.folder.name, "a.times")
        with open(path, "w", encoding="utf-8") as file:
            file.write("".join(line + "\n" for line in lines))
        return levels_in(path, self.view)

    def test_of_a_table(self):
        levels = self.levels("omptasks 1", "---", "times 2 0 9", "0 0 0 2", "1 1 4 9", "2 0 3 4")
        self.assertEqual((levels.threads, levels.end), (2, 9))
        self.assertEqual(sum(levels.busy), 8)

    def test_what_is_no_table(self):
        times = "times 2 0 9"
        for lines in (("segment thread",), (times, "0 0 5 2"), (times, "99 0 0 2"), (times, "x")):
            self.assertIsNone(self.levels(*lines))

    def test_the_greedy_run(self):
        view = worked.view("mesh")
        levels = levels_of_greedy(view)
        self.assertEqual((levels.end, sum(levels.busy)), (31, 41))

    def test_for_the_script(self):
        with worked.patched():
            data = levels_data(worked.view_without_page("split"))
        self.assertEqual(sorted(data["levels"]), ["greedy", "recorded"])
        self.assertEqual(data["names"][-1], "all others")
