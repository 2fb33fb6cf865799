import os
import tempfile
import unittest
from unittest import mock

from spanprof import client
from spanprof.time_breakdown import NoBreakdown, answered, in_words


class Refused(unittest.TestCase):
    def test_in_words(self):
        self.assertEqual(in_words("error: NotTimed 7"), "segment 7 has no times")
        self.assertEqual(in_words("error: TooSoon 3 1"),
                         "segment 3 begins before segment 1, which it waits for, has ended: the processors' clocks "
                         "differ, or the runtime did not wait")

    def test_other_lines(self):
        self.assertEqual(in_words("error: line 7: BadForm"), "spanprof_large account: error: line 7: BadForm")
        self.assertEqual(in_words("it ended with status 3"), "spanprof_large account: it ended with status 3")


class Asked(unittest.TestCase):
    def asked(self, program, text="a document"):
        with tempfile.TemporaryDirectory() as folder:
            path = os.path.join(folder, "mine.timed")
            with open(path, "w", encoding="utf-8") as file:
                file.write(text)
            with mock.patch.dict(os.environ, {"SPANPROF_LARGE": program}):
                return answered(client.ask, [], path)

    def test_the_document_is_its_input(self):
        self.assertEqual(self.asked("sh -c cat"), "a document")

    def test_what_it_refuses(self):
        with self.assertRaisesRegex(NoBreakdown, "^segment 7 has no times$"):
            self.asked("sh -c 'echo error: NotTimed 7; exit 1'")

    def test_no_program(self):
        with self.assertRaisesRegex(NoBreakdown, "^SPANPROF_LARGE: /none: No such file"):
            self.asked("/none")

    def test_no_document(self):
        with mock.patch.dict(os.environ, {"SPANPROF_LARGE": "cat"}), \
                self.assertRaisesRegex(NoBreakdown, "^/no/mine.timed: No such file or directory$"):
            answered(client.ask, [], "/no/mine.timed")


if __name__ == "__main__":
    unittest.main()
