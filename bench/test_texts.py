"""Tests of the scripts that make texts: python3 -m unittest bench/test_texts.py"""
import contextlib
import io
import os
import pathlib
import sys
import tempfile
import unittest
from unittest import mock

sys.path.insert(0, str(pathlib.Path(__file__).resolve().parent))
import large_texts
import make_texts


def reported(main, words):
    """What is printed, what is said of an error, and the status."""
    printed, said, status = io.StringIO(), io.StringIO(), 0
    with contextlib.redirect_stdout(printed), contextlib.redirect_stderr(said):
        try:
            main(words)
        except SystemExit as end:
            status = end.code
    return printed.getvalue(), said.getvalue(), status


class Words(unittest.TestCase):
    def setUp(self):
        self.folder = self.enterContext(tempfile.TemporaryDirectory())
        self.addCleanup(os.chdir, os.getcwd())
        os.chdir(self.folder)

    def test_help_makes_nothing(self):
        for script in (make_texts, large_texts):
            printed, said, status = reported(script.main, ["--help"])
            self.assertIn("usage:", printed)
            self.assertIn("".join(script.__doc__.split()), "".join(printed.split()))
            self.assertEqual((said, status), ("", 0))
        self.assertEqual(os.listdir(self.folder), [])

    def test_wrong_words_make_nothing(self):
        for script, wrong in ((make_texts, []), (make_texts, ["--texts"]), (make_texts, ["one", "two"]),
                              (large_texts, ["chain"]), (large_texts, ["ring", "3"]), (large_texts, ["chain", "-3"])):
            printed, said, status = reported(script.main, wrong)
            self.assertIn("usage:", said)
            self.assertEqual((printed, status), ("", 2))
        self.assertEqual(os.listdir(self.folder), [])


class Folders(unittest.TestCase):
    def test_each_text_and_its_run(self):
        def small():
            return make_texts.HEADER + make_texts.WORKED

        with tempfile.TemporaryDirectory() as folder, mock.patch.object(make_texts, "TEXTS", (small,)):
            make_texts.main([folder + "/made/here"])
            made = {path.name: path.read_text() for path in pathlib.Path(folder, "made/here").iterdir()}
        self.assertEqual(sorted(made), ["small.replay", "small.tasks"])
        self.assertEqual(made["small.tasks"], small())
        self.assertTrue(made["small.replay"].startswith(small() + "\n---\nstart 0 0\nfinish 0 0\n"))
        self.assertTrue(made["small.replay"].endswith("finish 0 3\n"))


class Shapes(unittest.TestCase):
    def test_so_many_tasks(self):
        for name, shape in large_texts.SHAPES.items():
            opened = "".join(shape(4)).count("taskgroup {" if name == "groups" else "task ")
            self.assertEqual(opened, {"tree": 3}.get(name, 4), name)

    def test_a_thousand_bytes_of_a_line_for_each_task(self):
        self.assertEqual([len(line) for line in large_texts.one_line(3)], [1_000, 1_000, 1_000, 1])

    def test_the_line_has_a_gigabyte_at_most(self):
        with mock.patch.object(large_texts, "LONGEST_LINE", 300):
            self.assertEqual([len(line) for line in large_texts.one_line(3)], [100, 100, 100, 1])

    def test_the_items_of_a_task(self):
        for shape, distinct in (("items", 96), ("same_items", 32)):
            lines = list(large_texts.SHAPES[shape](3))
            names = [name for line in lines for name in line.split(": ")[1].split(")")[0].split(", ")]
            self.assertEqual((len(names), len(set(names))), (96, distinct))


if __name__ == "__main__":
    unittest.main()
