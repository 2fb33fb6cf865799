"""The recording of a million tasks, made smaller."""
import os
import tempfile
import unittest

from million import main


class Small(unittest.TestCase):
    def test_text_and_times_have_the_same_segments(self):
        with tempfile.TemporaryDirectory() as folder:
            main([folder, "5"])
            with open(os.path.join(folder, "million.tasks"), encoding="utf-8") as file:
                text = file.read()
            with open(os.path.join(folder, "million.times"), encoding="utf-8") as file:
                rows = [list(map(int, line.split(","))) for line in file.read().split()[1:]]
        self.assertEqual(text.count("task {"), 5)
        self.assertEqual(sorted(row[0] for row in rows), list(range(12)))
        by_thread = sorted((thread, start, end) for _, thread, start, end in rows)
        self.assertTrue(all(a[2] <= b[1] for a, b in zip(by_thread, by_thread[1:]) if a[0] == b[0]))
