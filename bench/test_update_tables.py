"""Tests of update_tables.py: python3 -m unittest bench/test_update_tables.py"""
import contextlib
import io
import pathlib
import sys
import tempfile
import unittest
from unittest import mock

sys.path.insert(0, str(pathlib.Path(__file__).resolve().parent))
import update_tables
from update_tables import HEADS, PAGE, Refused, marked, name_of, page_with, table_of

TABLE = """\
text           command               spanprof     plain  times
chain          span                      20.9      15.2   1.38
chain          curve --upto 64           27.0     149.4   0.18
"""
COUNTED = TABLE.replace("20.9", "19.9")
BEFORE = "# How fast\n\n<!-- begin bench/instructions.sh -->\n```\n"
BEHIND = "```\n<!-- end bench/instructions.sh -->\n\n```\nanother\n```\n"


class Rows(unittest.TestCase):
    def test_text_and_command(self):
        self.assertEqual(name_of("chain          curve --upto 64           27.0     149.4   0.18", "instructions"),
                         "chain curve --upto 64")
        self.assertEqual(name_of("tree           10.7     0.11   0.14   0.79      1.7    2.0", "large"), "tree")

    def test_what_is_no_row(self):
        for row in ("chain span 20.9 15.2", "chain span 20.9 15.2 1.38 7.7", "chain span 20.9 15.2 1.38  other",
                    "chain span  over 60 s", ""):
            with self.assertRaisesRegex(Refused, "no row of instructions.sh"):
                name_of(row, "instructions")


class Tables(unittest.TestCase):
    def test_lines_before_the_head_are_left_out(self):
        reported = "1700 reports on 100 random programs: 0 different\n" + TABLE
        self.assertEqual(table_of(reported, "instructions"), TABLE.splitlines())

    def test_no_table(self):
        for printed in ("", TABLE.splitlines()[0] + "\n", TABLE + TABLE, "chain span 20.9 15.2 1.38\n"):
            with self.assertRaises(Refused):
                table_of(printed, "instructions")

    def test_a_table_of_another_script(self):
        with self.assertRaisesRegex(Refused, "no table of commands.sh"):
            table_of(TABLE, "commands")

    def test_different_reports(self):
        for printed in ("DIFFERENT: span < 7.tasks: 1 and 2\n" + TABLE, TABLE + "fan  span  9.1 8.0 1.14  DIFFERENT\n"):
            with self.assertRaisesRegex(Refused, "what both programs print differs"):
                table_of(printed, "instructions")

    def test_a_fault_in_the_middle(self):
        with self.assertRaises(Refused):
            table_of(TABLE + "valgrind: not found\n", "instructions")


class Pages(unittest.TestCase):
    def test_only_what_is_between_the_markers_changes(self):
        self.assertEqual(page_with(BEFORE + TABLE + BEHIND, COUNTED, "instructions"), BEFORE + COUNTED + BEHIND)

    def test_a_row_that_is_missing(self):
        fewer = "\n".join(TABLE.splitlines()[:2]) + "\n"
        with self.assertRaisesRegex(Refused, "1 rows of the page are missing, first: chain curve --upto 64"):
            page_with(BEFORE + TABLE + BEHIND, fewer, "instructions")
        self.assertEqual(page_with(BEFORE + TABLE + BEHIND, fewer, "instructions", True), BEFORE + fewer + BEHIND)

    def test_a_row_more(self):
        more = TABLE + "fan            span                     126.0     186.2   0.68\n"
        self.assertEqual(page_with(BEFORE + TABLE + BEHIND, more, "instructions"), BEFORE + more + BEHIND)

    def test_markers_are_there_once(self):
        for page in (TABLE, 2 * (BEFORE + TABLE + BEHIND)):
            with self.assertRaisesRegex(Refused, "the page has [02] tables"):
                page_with(page, TABLE, "instructions")

    def test_the_first_table(self):
        begin, end = BEFORE.removesuffix("```\n"), BEHIND.removeprefix("```\n")
        self.assertEqual(page_with(begin + end, TABLE, "instructions"), BEFORE + TABLE + BEHIND)

    def test_the_page_has_the_markers_of_all_scripts_and_their_tables(self):
        page = PAGE.read_text(encoding="utf-8")
        for script in HEADS:
            found = marked(script).search(page)
            if found[2] is not None:
                self.assertEqual(page_with(page, found[2], script), page)


class Program(unittest.TestCase):
    def answer(self, words, printed, page=BEFORE + TABLE + BEHIND):
        """The status, the page then, and what was said."""
        said = io.StringIO()
        with tempfile.TemporaryDirectory() as folder:
            place = pathlib.Path(folder, "tables.txt")
            place.write_text(page, encoding="utf-8")
            with mock.patch.object(update_tables, "PAGE", place), contextlib.redirect_stderr(said), \
                    mock.patch.object(sys, "argv", ["", *words]), mock.patch.object(sys, "stdin", io.StringIO(printed)):
                return update_tables.main(), place.read_text(encoding="utf-8"), said.getvalue()

    def test_a_table_is_put_in(self):
        self.assertEqual(self.answer(["instructions"], COUNTED), (0, BEFORE + COUNTED + BEHIND, ""))

    def test_what_is_refused_changes_nothing(self):
        status, page, said = self.answer(["instructions"], "failed\n")
        self.assertEqual((status, page), (1, BEFORE + TABLE + BEHIND))
        self.assertRegex(said, "^error: no table of instructions.sh")

    def test_wrong_words(self):
        for words in ([], ["times"], ["large", "commands"], ["--all", "large"]):
            self.assertEqual(self.answer(words, TABLE)[:2], (2, BEFORE + TABLE + BEHIND))


if __name__ == "__main__":
    unittest.main()
