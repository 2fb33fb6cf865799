import contextlib
import io
import json
import os
import shutil
import tempfile
import unittest
from unittest import mock

from spanprof.report.command import beside, main
from spanprof.report.tests import worked
from spanprof.tests.proofs import with_a_proved_program

setUpModule = with_a_proved_program


class Command(unittest.TestCase):
    def setUp(self):
        patch = worked.patched()
        patch.start()
        self.addCleanup(patch.stop)
        self.folder = tempfile.TemporaryDirectory()
        self.addCleanup(self.folder.cleanup)

    def out(self, name):
        return os.path.join(self.folder.name, name)

    def refused(self, *words):
        reported = io.StringIO()
        with contextlib.redirect_stderr(reported), self.assertRaises(SystemExit) as ended:
            main(list(words))
        self.assertIn(ended.exception.code, (1, 2))
        return reported.getvalue()

    def test_all_that_can_be_written(self):
        main([worked.path("mesh.tasks"), "-o", self.out("m.html"), "--trace", self.out("m.json"),
              "--source", worked.FOLDER])
        with open(self.out("m.html"), encoding="utf-8") as file:
            self.assertTrue(file.read().startswith("<!DOCTYPE html>"))
        with open(self.out("m.json"), encoding="utf-8") as file:
            self.assertTrue(json.load(file))

    def test_a_name_that_is_no_text(self):
        text = os.path.join(os.fsencode(self.folder.name), b"\xff.tasks")
        shutil.copy(worked.path("plain.tasks"), text)
        main([os.fsdecode(text), "-o", self.out("m.html")])
        with open(self.out("m.html"), encoding="utf-8") as file:
            self.assertIn("?.tasks", file.read())

    def copied(self, name="mesh"):
        shutil.copy(worked.path(name + ".tasks"), self.folder.name)
        return self.out(name + ".tasks")

    def test_a_page_is_written_beside_the_text_and_named(self):
        reported = io.StringIO()
        with contextlib.redirect_stderr(reported):
            main([self.copied()])
        self.assertTrue(os.path.exists(self.out("mesh.html")))
        self.assertEqual(reported.getvalue(), "spanprof-report: written: %s\n" % self.out("mesh.html"))
        self.assertEqual(beside("a/b.html"), "a/b.html.html")

    def test_the_diagnosis_as_json(self):
        out, reported = io.StringIO(), mock.Mock()
        reported.json.return_value = {"schema": 1}
        with contextlib.redirect_stdout(out), mock.patch("spanprof.report.command.output_of", return_value=reported):
            main([self.copied(), "--json"])
        reported = json.loads(out.getvalue())
        self.assertEqual([reported[name] for name in ("schema", "text", "scale")], [1, "mesh.tasks", None])
        self.assertFalse(os.path.exists(self.out("mesh.html")))

    def test_refusals(self):
        mesh = worked.path("mesh.tasks")
        self.assertIn("'0' is not a whole number from 1 to 1024", self.refused(mesh, "-o", "x", "--threads", "0"))
        self.assertIn("are for different files", self.refused(mesh, "-o", "x", "--trace", "./x"))
        self.assertIn("compared in lines, or by --json", self.refused(mesh, mesh, "-o", "x"))
        self.assertIn("unrecognized arguments: --js", self.refused(mesh, "--js"))
        self.assertEqual(self.refused(""), "spanprof-report: '': no such file\n")
        self.assertEqual(self.refused("no.tasks", "-o", "x"), "spanprof-report: no.tasks: no such file\n")
        self.assertIn("No such file or directory", self.refused(mesh, "-o", self.out("none/x.html")))
        self.assertIn("--source /none: no such folder", self.refused(mesh, "-o", "x", "--source", "/none"))

    def test_no_file_is_written_over_the_text(self):
        text = self.copied()
        for option, what in (("-o", "page"), ("--trace", "trace")):
            self.assertEqual(self.refused(text, option, text),
                             "spanprof-report: %s: the %s would be written over the text\n" % (text, what))
