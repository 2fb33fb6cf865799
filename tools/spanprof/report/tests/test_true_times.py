import argparse
import json
import re
import unittest

from spanprof.report.part_curve import Point, curve_part, true_times_beside
from spanprof.report.tests import worked
from spanprof.report.tests.expected import Program
from spanprof.report.tests.page_reader import read_page
from spanprof.tests.in_folder import InFolder

TOLD = {"threads": [
    {"threads": 4, "speedup": 2.5, "speedup from": 2.0, "speedup to": 3.0}]}
POINTS = [Point(1, 1.0, 0.95, 1.05), Point(4, 1.21, 1.02, 1.33), Point(64, 2.0, 2.0, 40.0)]


class Files(InFolder):
    def setUp(self):
        super().setUp()
        self.write("recording.json", "{}")
        self.answers = argparse.Namespace(path=self.write("program.tasks"))

    def points(self, reported):
        self.write("scale.json", reported if isinstance(reported, str) else json.dumps(reported))
        return true_times_beside(self.answers)

    def test_those_of_this_recording(self):
        self.assertEqual(true_times_beside(self.answers), [])
        self.assertEqual(self.points(TOLD), [Point(4, 2.5, 2.0, 3.0)])
        self.answers.path = self.write("plain.tasks")
        self.assertEqual(true_times_beside(self.answers), [])

    def test_others(self):
        for threads in ([{}], 3):
            self.assertEqual(self.points({"threads": threads}), [])
        for wrong in ("", "[]", "{", "7"):
            self.assertEqual(self.points(wrong), [], wrong)

    def test_what_the_page_is_judged_by(self):
        program = Program.__new__(Program)
        program.file = worked.path("split.tasks")
        self.assertEqual([program.scale("2", name) for name in ("threads", "speedup-from")], [2, 11 / 9])


class Marks(unittest.TestCase):
    def part(self, points):
        view = worked.view("split")
        view.true_times = points
        return curve_part(view)

    def test_each_with_its_spread(self):
        part = self.part(POINTS)
        self.assertEqual(part.count('class="true"'), 2)
        self.assertIn("4 threads: 1.21 (1.02 to 1.33), true speedup against one thread: median of measured, "
                      "unrecorded runs of the whole program, least and greatest", part)
        self.assertIn('data-from="scale 4 threads; scale 4 speedup; scale 4 speedup-from; scale 4 speedup-to"', part)
        self.assertEqual(part.count('<i class="key hollow"'), 1)
        self.assertEqual(read_page(part).without_source, [])

    def test_within_the_picture(self):
        top = re.findall(r'd="M\S+ \S+V(\S+)M', self.part([Point(2, 9.0, 8.0, 12.0)]))
        self.assertGreater(float(top[0]), 0)

    def test_none(self):
        part = self.part([])
        self.assertNotIn("true speedup", part)
        self.assertNotIn('class="true', part)


if __name__ == "__main__":
    unittest.main()
