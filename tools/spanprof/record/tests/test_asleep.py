import os
import tempfile
import unittest
from types import SimpleNamespace
from unittest import mock

from spanprof.record.summary import asleep_in
from spanprof.record.tests.made_up import Answers, Head

OFF = "1 12000 0\n2 40000 7\n0 900 0\n"     # nanoseconds


def sums(_, kinds, wanted):
    """Segments 0 and 2 are on the path, as in the answers."""
    assert wanted == ("path",)
    cost, found = (20, 30, 50), {}
    for segment, kind in enumerate(kinds):
        found[kind] = found.get(kind, 0) + cost[segment] * (segment != 1)
    return [[found[kind] for kind in sorted(found)]]


class Sleep(unittest.TestCase):
    def found(self, words=OFF, **head):
        with tempfile.TemporaryDirectory() as folder, mock.patch("spanprof.client.places", sums):
            path = os.path.join(folder, "off")
            with open(path, "w", encoding="utf-8") as file:
                file.write(words)
            recording = SimpleNamespace(file=lambda name: path if name == "off" and words else "")
            return asleep_in(recording, Answers(head=Head(**head)))

    def test_of_the_work_and_of_the_critical_path(self):
        self.assertEqual(self.found(), (52, 40))
        self.assertEqual(self.found("0 20000 0\n1 20000 0\n2 99000 0\n"), (139, 20 + 50))

    def test_costs_by_the_processors_clock_have_none(self):
        self.assertEqual(self.found(clock="cpu"), (0, 0))
        self.assertEqual(self.found(words=""), (0, 0))

    def test_little_is_none(self):
        self.assertEqual(self.found("0 900 0\n1 999 0\n"), (0, 0))


if __name__ == "__main__":
    unittest.main()
