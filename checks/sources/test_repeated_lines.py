#!/usr/bin/env python3
"""Tests of repeated_lines.py."""
import unittest

from repeated_lines import SLACK, WINDOW, counted, judged, longest_runs, repeated

ROW = ["line %d" % number for number in range(WINDOW)]


def files(**texts):
    return {name: counted("\n".join(lines)) for name, lines in texts.items()}


class Counted(unittest.TestCase):
    def test_layout_and_lines_without_a_word_do_not_count(self):
        self.assertEqual(counted("a\n\n  }\n\tb  c\n"), [(1, "a"), (4, "b c")])

    def test_imports_do_not_count(self):
        text = "use a.{b}\nuse c::{\n    d,\n};\npub ghost use e;\npub mod f\nuseful = 1\n"
        self.assertEqual(counted(text), [(7, "useful = 1")])

    def test_parameters_do_not_count(self):
        text = "    pub fn made(\n        &mut self,\n        line: u32,\n    ) -> u32\n{\n    line + 1\n"
        self.assertEqual(counted(text), [(1, "pub fn made("), (6, "line + 1")])


class Repeated(unittest.TestCase):
    def test_a_row_that_stands_once_is_not_repeated(self):
        self.assertEqual(repeated(files(one=ROW, other=ROW[:-1])), set())

    def test_each_line_of_a_row_that_stands_twice_is_repeated_in_both_places(self):
        found = repeated(files(one=ROW, other=["before"] + ROW))
        self.assertEqual(found, {("one", place) for place in range(WINDOW)}
                         | {("other", place + 1) for place in range(WINDOW)})

    def test_a_line_is_counted_once_however_many_rows_have_it(self):
        longer = ROW + ["one more"]
        self.assertEqual(len(repeated(files(one=longer, other=longer))), 2 * len(longer))

    def test_two_places_of_one_file_count(self):
        self.assertEqual(len(repeated(files(one=ROW + ["between"] + ROW))), 2 * WINDOW)


class Runs(unittest.TestCase):
    def test_a_run_is_reported_whole_and_longest_first(self):
        longer = ROW + ["one more"]
        other = ["other %d" % number for number in range(WINDOW)]
        reported = longest_runs(files(one=longer + other, two=longer, three=other))
        self.assertEqual(reported, [(WINDOW + 1, ("one", 0), ("two", 0)), (WINDOW, ("one", WINDOW + 1), ("three", 0))])


class Judged(unittest.TestCase):
    def test_more_than_the_bound_is_refused(self):
        reported, kept = judged(".rt", 11, 1000, 100)
        self.assertFalse(kept)
        self.assertIn("--list", reported)

    def test_a_bound_far_above_has_to_be_lowered(self):
        self.assertFalse(judged(".rt", 0, 1000, SLACK + 1)[1])

    def test_near_the_bound_is_kept(self):
        self.assertTrue(judged(".rt", 10, 1000, 100)[1])
        self.assertTrue(judged(".rt", 10, 1000, 100 + SLACK)[1])


if __name__ == "__main__":
    unittest.main()
