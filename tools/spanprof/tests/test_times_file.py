"""In tools/: python3 -m unittest discover -s spanprof/tests -t ."""
import unittest

from spanprof.recording import times_in
from spanprof.tests.in_folder import InFolder


class Times(InFolder):
    def test_of_a_file_and_of_a_document(self):
        for text in ("", "omptasks 1\nwork 5\n---\n"):
            first, columns = times_in(self.write("times", text + "times 2 0 9\n0 0 1 3\n\n1 1 4 8\n"))
            self.assertEqual((first, list(zip(*columns))), ((2, 0, 9), [(0, 0, 1, 3), (1, 1, 4, 8)]))

    def test_what_has_none(self):
        for text in ("omptasks 1\n", "times 2 0 9\n0 0 1\n", "times 2 0 9\n0 0 1 x\n"):
            with self.assertRaises(ValueError):
                times_in(self.write("times", text))


if __name__ == "__main__":
    unittest.main()
