"""The page of a long text, made of a short one that is called long: its numbers are those of the other page."""
import contextlib
import io
import json
import os
import shutil
import tempfile
import unittest
from unittest import mock

from spanprof.report.command import main
from spanprof.report.page import page
from spanprof.report.tests import worked
from spanprof.report.tests.compare import faults_of
from spanprof.report.tests.expected import Program
from spanprof.report.tests.page_reader import read_page

UPTO = ["curve", "--upto", "16"]


class Long:
    """The kept answers; those to `--upto` are rows of the curve."""

    def __init__(self):
        self.kept = worked.Kept()

    def __call__(self, words, text):
        if words[0] != "--upto":
            return self.kept(words, text)
        rows = [line.split(",") for line in self.kept(UPTO, text).splitlines()]
        return "".join("%s,%s,%s\n" % (row[0], row[2], row[3]) for row in rows)


class OfALongText(unittest.TestCase):
    def setUp(self):
        for patch in (worked.patched(), mock.patch("spanprof.answers.is_long", return_value=True),
                      mock.patch("spanprof.client.ask", Long()), mock.patch("spanprof.answers.LONGEST_CURVE", 16)):
            patch.start()
            self.addCleanup(patch.stop)

    def view(self, name="mesh"):
        return worked.view_without_page(name)

    def test_each_number_is_that_of_the_other_page(self):
        found = read_page(page(self.view()))
        with mock.patch("spanprof.answers.is_long", return_value=False):
            data = json.loads(read_page(worked.page_text("mesh")).data)
        expected = Program(worked.path("mesh.tasks"), data, worked.Kept())
        self.assertEqual([fault for figure in found.figures for fault in faults_of(figure, expected)], [])
        self.assertEqual(found.without_source, [])
        self.assertGreater(len(found.figures), 60)

    def test_a_timeline_where_there_are_times(self):
        self.assertIn('data-run="recorded"', page(self.view("split")))
        made = page(self.view())
        self.assertNotIn('data-run="recorded"', made)
        self.assertIn('data-run="greedy"', made)

    def test_what_is_not_to_be_had(self):
        reported = io.StringIO()
        with contextlib.redirect_stderr(reported), tempfile.TemporaryDirectory() as folder:
            text = shutil.copy(worked.path("mesh.tasks"), folder)
            with self.assertRaises(SystemExit):
                main([text, "--trace", os.path.join(folder, "m.json")])
            self.assertIn("mesh.tasks: the text is beyond the limits of spanprof, and has no --trace",
                          reported.getvalue())
            main([text, "-o", os.path.join(folder, "m.html")])
            self.assertTrue(os.path.exists(os.path.join(folder, "m.html")))


if __name__ == "__main__":
    unittest.main()
