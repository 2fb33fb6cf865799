"""Tests of style.py: python3 -m unittest checks/sources/test_style.py"""
import pathlib
import sys
import unittest

sys.path.insert(0, str(pathlib.Path(__file__).resolve().parent))

from style import faults

LONG = "x" * 121


class Style(unittest.TestCase):
    def test_lines(self):
        self.assertEqual(list(faults("a = 1  # %s\n" % LONG)), [(1, "130 columns")])
        self.assertEqual(list(faults('"""%s\n%s"""\n' % ("A module.", LONG))), [(2, "124 columns")])

    def test_texts_of_several_lines(self):
        self.assertEqual(list(faults('a = """\n%s\n"""\n' % LONG)), [])
        self.assertEqual(list(faults('a = ("b"\n     "%s")\n' % LONG)), [(2, "129 columns")])

    def test_functions(self):
        self.assertEqual(list(faults("def f():\n" + "    a = 1\n" * 38)), [])
        self.assertEqual(list(faults("def f():\n" + "    a = 1\n" * 39)), [(1, "f has 40 lines")])


if __name__ == "__main__":
    unittest.main()
