"""Tests of may_wait.py: python3 -m unittest checks/sources/test_may_wait.py"""
import pathlib
import sys
import unittest

sys.path.insert(0, str(pathlib.Path(__file__).resolve().parent))
from may_wait import fault, listed, printed

CRATES_TXT = "low:\n# high may_wait=9: low\nhigh may_wait=14: low\ntop tests_may=Threads+Wait: high\n"


class MayWait(unittest.TestCase):
    def test_numbers_of_crates_txt(self):
        self.assertEqual(listed(CRATES_TXT, "high"), 14)
        self.assertEqual(listed(CRATES_TXT, "low"), 0)
        self.assertEqual(listed(CRATES_TXT, "top"), 0)
        self.assertIsNone(listed(CRATES_TXT, "gone"))

    def test_number_of_a_verdict(self):
        self.assertEqual(printed("fn f: proved, may wait\nlogic=proved functions=3 may-wait=2 sum=0\n"), 2)
        self.assertEqual(printed("logic=proved functions=3 sum=0\n"), 0)
        self.assertIsNone(printed("logic=not-proved\n"))

    def test_what_is_wrong(self):
        self.assertIsNone(fault("high", 14, 14))
        self.assertIn("may_wait=14", fault("high", 14, 13))
        self.assertIn("not prove", fault("high", 14, None))
        self.assertIn("not list", fault("gone", None, 1))


if __name__ == "__main__":
    unittest.main()
