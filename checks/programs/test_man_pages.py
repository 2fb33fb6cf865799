"""Tests of man_pages.py: python3 -m unittest checks/programs/test_man_pages.py"""
import pathlib
import sys
import unittest

sys.path.insert(0, str(pathlib.Path(__file__).resolve().parent))
from man_pages import (NAME, differences, options_of_page, section, statuses_of_help, statuses_of_page,
                       shown_in_page)

PAGE = """\
COMMANDS
       span   The span.
       greedy --threads P
              A table.
EXIT STATUS
       0      The report was written.
       3      Memory ran out.
ERRORS
       error: line L: KIND
              Such as error: line 2: Unclosed.
       error: BadForm
       error: wrong words
SEE ALSO
       error: of another page
"""


class Pages(unittest.TestCase):
    def test_what_a_page_tells(self):
        self.assertEqual(shown_in_page(PAGE), {
            "error lines": {"line", "BadForm", "wrong words"}, "kinds": {"Unclosed", "BadForm"},
            "commands": {"span", "greedy"}, "exit statuses": {"0", "3"}})

    def test_options(self):
        page = "\nOPTIONS\n   -o X, --output X\n   --no-directed\n\nEXIT STATUS\n   --none\n"
        self.assertEqual(options_of_page(page), {"--output", "--no-directed"})

    def test_exit_statuses(self):
        reported = "usage: a\n\nThe exit status is\nthe program's; 125 where nothing was, 126\nwhere none can. " \
            "Up to 64 threads."
        self.assertEqual(statuses_of_help(reported), {"125", "126"})
        self.assertEqual(statuses_of_help("Exit status 1: a file is missing; 2: wrong words."), {"1", "2"})
        self.assertEqual(statuses_of_help("options: 3"), set())
        page = "\nEXIT STATUS\n  0 if all is there; 1 if spanprof(1) refuses a text.\n\nENVIRONMENT\n  7\n"
        self.assertEqual(statuses_of_page(page), {"1"})

    def test_both_directions(self):
        self.assertEqual(list(differences("a.1", {"x", "z"}, {"x", "y"})),
                         ["a.1: the page lacks y", "a.1: only the page has z"])

    def test_a_section_ends_at_the_next_heading(self):
        self.assertEqual(section("# One\na\n## Two\nb\n# Three\nc\n", "Two").strip(), "b")

    def test_kinds_are_words_of_several_capitals(self):
        self.assertEqual(NAME.findall("TooDeep Lines Unopened OutOfMemory A"), ["TooDeep", "Unopened", "OutOfMemory"])


if __name__ == "__main__":
    unittest.main()
