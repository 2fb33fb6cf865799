"""Tests of sentences.py: python3 -m unittest checks/sources/test_sentences.py"""
import pathlib
import sys
import unittest

sys.path.insert(0, str(pathlib.Path(__file__).resolve().parent))
from sentences import faults, paragraphs, sentences, too_many, without_code, words, words_in_all


def all_sentences(text):
    return [found for start, lines in paragraphs(without_code(text)) for found in sentences(start, lines)]


def long_one(count=36):
    return " ".join(["a"] * count) + "."


class Sentences(unittest.TestCase):
    def test_ends(self):
        self.assertEqual([sentence for _, sentence in all_sentences("**One.** Is it two? (It is.) three, i.e. this\n")],
                         ["**One.**", "Is it two?", "(It is.)", "three, i.e. this"])

    def test_signs_inside_code_end_nothing(self):
        self.assertEqual(len(all_sentences("A `b. c? d` of [a page](x.md?y) .. to its end\n")), 1)
        self.assertEqual(len(all_sentences("See [a page](x.md). Then `b.` is so. End\n")), 3)

    def test_a_sentence_has_the_line_of_its_first_word(self):
        self.assertEqual(all_sentences("\nA b\nc. D\n\n- E\n  f. G\n1. H\n"),
                         [(2, "A b c."), (3, "D"), (5, "E f."), (6, "G"), (7, "H")])

    def test_a_colon_before_a_list_ends_one(self):
        self.assertEqual(all_sentences("So:\n- a,\n- b.\n"), [(1, "So:"), (2, "a,"), (3, "b.")])

    def test_cells_are_text_of_their_own(self):
        self.assertEqual([sentence for _, sentence in all_sentences("| a | b c \\| d |\n|---|---|\n| e | f. G |\n")],
                         ["a", "b c \\| d", "e", "f.", "G"])

    def test_code_and_headings_are_none(self):
        self.assertEqual(all_sentences("# " + long_one() + "\n```\n$ a. b\n~~~\n```\nc\n"), [(6, "c")])

    def test_words(self):
        self.assertEqual(words("a `b c` [d e](f) - g"), 7)


class Faults(unittest.TestCase):
    def test_words(self):
        self.assertEqual(faults(long_one(35) + "\n"), [])
        self.assertEqual(faults("A b.\n\nC d.\n" + long_one().replace(" a", "\na", 1) + "\n"),
                         [(4, "36 words", long_one())])

    def test_columns(self):
        self.assertEqual(faults("x" * 120 + "\n\n```\n" + "x" * 121 + "\n```\n| " + "x" * 121 + " |\n"), [])
        self.assertEqual(faults("y\n" + "x" * 121 + "\n"), [(2, "121 columns", "x" * 121)])

    def test_in_order(self):
        self.assertEqual([number for number, _, _ in faults("x" * 121 + "\n\n" + long_one() + "\n\n" + "x" * 121)],
                         [1, 3, 5])


class InAll(unittest.TestCase):
    def test_which_count(self):
        pages = {"README.md": "a b", "CONTRIBUTING.md": "c", "docs/A.md": "d", "docs/a/B.md": "e", "checks/C.md": "f"}
        self.assertEqual(list(words_in_all(pages).values()), [2, 4, 6])
        self.assertEqual(list(too_many(pages)), [])

    def test_each_bound(self):
        self.assertEqual(list(too_many({"README.md": "a " * 1001})), ["the front page: 1001 words, and 1000 at most"])
        many = {"README.md": "a", "docs/A.md": "b " * 20000}
        self.assertEqual(list(too_many(many)), ["readers' documents: 20001 words, and 20000 at most"])
        self.assertEqual(list(too_many({"README.md": "a", "tools/A.md": "b " * 40000})),
                         ["all documents: 40001 words, and 40000 at most"])


if __name__ == "__main__":
    unittest.main()
