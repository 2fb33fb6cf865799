"""Tests of retired_words.py: python3 -m unittest checks/sources/test_retired_words.py"""
import pathlib
import sys
import unittest

sys.path.insert(0, str(pathlib.Path(__file__).resolve().parent))
from retired_words import faults, of_cpp, of_document, of_manual, of_program, read_by_users


def words(lines):
    return [(number, word) for number, word, _ in faults(lines)]


class Words(unittest.TestCase):
    def test_each_with_what_to_write(self):
        self.assertEqual(list(faults([(3, "It tells of a greedy run.")])),
                         [(3, "tells", "reported, says, predicted"), (3, "greedy run", "greedy schedule")])

    def test_other_meanings_stay(self):
        for line in ("in turns, taken from a table", "accounted for", "besides", "error: wrong words", "the gates"):
            self.assertEqual(words([(1, line)]), [])


class Texts(unittest.TestCase):
    def test_code_in_documents_is_left_out(self):
        text = "`account` and [the account](account.md)\n```\ntold\n```\nbeside `told`\n"
        self.assertEqual(words(of_document(text)), [(1, "account"), (5, "beside")])

    def test_arguments_in_man_pages_are_left_out(self):
        page = ".SH ACCOUNT\n.B account\nIt is \\fBaccount\\fR.\n.nf\ntold\n.fi\nThe account is told.\n"
        self.assertEqual(words(of_manual(page)), [(7, "told"), (7, "account")])

    def test_strings_that_are_printed(self):
        source = '"""What is told."""\nNAME = "told"\nprint("it is told here")\nprint("see `told` of this")\n'
        self.assertEqual(words(of_program(source)), [(3, "told")])

    def test_strings_of_cpp(self):
        source = '// it is told here\nsay("it is told \\"here");  // and told\nput("told");\n'
        self.assertEqual(words(of_cpp(source)), [(2, "told")])

    def test_readers_files_without_tests(self):
        names = {path.name for path in read_by_users()}
        self.assertTrue({"README.md", "GLOSSARY.md", "spanprof.1", "summary.py", "convert.cpp"} <= names)
        self.assertNotIn("test_summary.py", names)


if __name__ == "__main__":
    unittest.main()
