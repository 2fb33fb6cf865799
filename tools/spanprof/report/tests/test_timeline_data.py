import unittest

from spanprof.report.tests import worked
from spanprof.report.tests.expected import unpacked
from spanprof.report.timeline import base36, packed, recorded_data, timeline_data
from spanprof.report.view import RecordedRun


class Packing(unittest.TestCase):
    def test_base_36(self):
        self.assertEqual([base36(n) for n in (0, 35, 36, 1295)], ["0", "z", "10", "zz"])

    def test_there_and_back(self):
        self.assertEqual(unpacked(packed([0, None, 71])), [0, None, 71])


class Data(unittest.TestCase):
    def test_a_timed_run_is_in_nanoseconds(self):
        run = RecordedRun([0.5, 2], [1.25, 2.001], [0, 1], unit=1000, count=2)
        self.assertEqual(recorded_data(run), {"starts": packed([500, 2000]), "lanes": "0 1", "count": 2,
                                              "lengths": packed([750, 1]), "per": 1000})

    def test_of_the_worked_program(self):
        data = timeline_data(worked.view("mesh"))
        self.assertEqual(unpacked(data["cost"]), [5, 12, 1, 6, 4, 0, 1, 1, 8, 0, 0, 0, 3])
        self.assertEqual(unpacked(data["critical"]), [0, 1, 3, 4, 6, 12])
        self.assertEqual([sorted(timeline_data(worked.view(name))["runs"]) for name in ("mesh", "split")],
                         [["greedy"], ["greedy", "recorded"]])
        self.assertEqual((data["name"], data["unit"]), ("mesh.tasks", "µs"))
