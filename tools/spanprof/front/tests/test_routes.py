"""In tools/: python3 -m unittest discover -s spanprof/front/tests -t ."""
import unittest

from spanprof.front.help_texts import GENERAL, USAGES, help_of
from spanprof.front.routes import (COMMANDS, HELP, LARGE, LARGE_COMMANDS, OTHER_NAMES, PROGRAM, TOOL, TOOLS, VERSION,
                                   Route, are_right, main_of, route)


def to(words, files=()):
    return route(words.split(), files.__contains__)


class Routes(unittest.TestCase):
    def test_the_ten_commands_go_to_the_program_as_they_are(self):
        for words in ("", "span", "show", "slack", "greedy --threads 4", "curve --upto=3", "whatif 1=9 2=0", "certify",
                      "check", "run --workers 2", "replay", "whatif", "whatif -- 1=9", "greedy", "slack 1"):
            self.assertEqual(to(words), Route(PROGRAM, words.split()), words)

    def test_what_is_no_command_goes_to_the_program_too(self):
        for words in ("shown", "--upto 3", "SPAN", "mine.tasks", "version", "--version span", "-v"):
            self.assertEqual(to(words, ["mine.tasks"]), Route(PROGRAM, words.split()), words)

    def test_of_texts_of_any_size(self):
        for words in ("bounds --upto 3", "account", "account --rows", "graph", "places", "whatif --listed"):
            self.assertEqual(to(words), Route(LARGE, words.split()), words)

    def test_tools(self):
        for words in ("record -- ./mine", "report mine.tasks", "convert", "path x", "predict x", "conformance list"):
            self.assertEqual(to(words), Route(TOOL, words.split()), words)
        self.assertEqual(to("test run --cc gcc"), Route(TOOL, "conformance run --cc gcc".split()))

    def test_which_whatif_is_meant(self):
        for words in ("mine.tasks --places", "mine.tasks", "--help", "--json mine.tasks", "1=9 mine.tasks"):
            self.assertEqual(to("whatif " + words, ["mine.tasks"]), Route(TOOL, ["whatif"] + words.split()), words)
        for words in ("1=9", "1:9", "none.tasks", "--"):
            self.assertEqual(to("whatif " + words, ["1=9"]).to, PROGRAM, words)

    def test_which_graph_is_meant(self):
        self.assertEqual(to("graph --dot mine.tasks"), Route(TOOL, ["graph", "--dot", "mine.tasks"]))

    def test_help_and_version(self):
        for words in ("--help", "-h", "help"):
            self.assertEqual(to(words), Route(HELP, []), words)
        for words in ("help span", "span --help", "span -h"):
            self.assertEqual(to(words), Route(HELP, ["span"]), words)
        for words in ("--version", "-V"):
            self.assertEqual(to(words), Route(VERSION, []), words)

    def test_words_that_read_a_text(self):
        for words in ("", "span", "greedy --threads 4", "curve --upto 03", "run --workers 2", "whatif 1=9 2=0"):
            self.assertTrue(are_right(words.split()), words)
        for words in ("span 1", "greedy", "greedy --upto 4", "curve --upto x", "whatif", "whatif 1:9", "bounds"):
            self.assertFalse(are_right(words.split()), words)

    def test_each_tool_has_a_beginning(self):
        for name in TOOLS:
            self.assertTrue(callable(main_of(name)), name)


class Help(unittest.TestCase):
    def test_all_commands_stand_there(self):
        for name in set(COMMANDS + LARGE_COMMANDS + tuple(TOOLS) + tuple(OTHER_NAMES)) - {"conformance"}:
            self.assertRegex(GENERAL, r"(?m)^  %s +[a-z]" % name)

    def test_usages(self):
        self.assertEqual(set(USAGES), set(COMMANDS + LARGE_COMMANDS))
        self.assertTrue(help_of("greedy").startswith("Usage: spanprof greedy --threads P < FILE\n\nA table"))
        self.assertEqual(help_of("record"), "")


if __name__ == "__main__":
    unittest.main()
