"""In tools/: python3 -m unittest discover -s spanprof/front/tests -t ."""
import unittest

from spanprof.front.given import UNNAMED
from spanprof.front.help_texts import GENERAL, USAGES, help_of
from spanprof.front.meaning import meaning


def reported(words, line, text="omptasks 1\ntasks { }\n", name="mine.tasks"):
    return meaning(name, words.split(), text, line, lambda words, text: line if "\ntasks" in text else "")


class Help(unittest.TestCase):
    def test_no_line_is_too_long_for_a_terminal(self):
        for text in (GENERAL, *map(help_of, USAGES)):
            self.assertLessEqual(max(map(len, text.split("\n"))), 100, text)


class Meaning(unittest.TestCase):
    def test_the_line_and_the_token(self):
        lines = reported("slack", "error: line 2: BadWord")
        self.assertRegex(lines[0], "^mine.tasks:2:1: BadWord: unexpected `tasks`; did you mean `task`")
        self.assertEqual(lines[1:], ["    2 | tasks { }", "      | ^~~~~"])
        self.assertEqual(reported("", "error: line 2: BadWord")[1:], lines[1:])

    def test_what_takes_a_text_that_is_too_large(self):
        for line in ("error: line 2: TooManyTasks", "error: line 2: TooManySegments", "error: input too long"):
            self.assertEqual(reported("greedy --threads 4", line)[-1],
                             "spanprof: `spanprof_large greedy --threads 4 < mine.tasks` takes texts of any size")
        self.assertIn("`spanprof_large span` takes", reported("", "error: input too long", name=UNNAMED)[-1])
        self.assertIn("no command runs a larger program",
                      reported("run --workers 2", "error: line 2: TooManyTasks")[-1])

    def test_wrong_words(self):
        self.assertEqual(reported("greedy", "error: wrong words"), [
            "spanprof: wrong arguments of `greedy`; usage: spanprof greedy --threads P < FILE"])
        self.assertEqual(reported("slack " + __file__, "error: wrong words"), [
            "spanprof: wrong arguments of `slack`; usage: spanprof slack < " + __file__])
        self.assertEqual(reported("slak", "error: wrong words"), [
            "spanprof: there is no command `slak` (did you mean `slack`?); `spanprof --help` lists them"])
        self.assertEqual(reported("qqq", "error: wrong words"), [
            "spanprof: there is no command `qqq`; `spanprof --help` lists them"])

    def test_other_lines(self):
        self.assertEqual(reported("greedy --threads 0", "error: ThreadCount"),
                         ["mine.tasks: a number of threads is 1 to 1,024"])
        self.assertEqual(reported("check", "error: Broken 1 3"), [])
        self.assertEqual(reported("span", "segments 4"), ["spanprof: standard output cannot be written"])


if __name__ == "__main__":
    unittest.main()
