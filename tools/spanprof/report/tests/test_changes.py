"""The table of changes, and the source with heat."""
import unittest
from types import SimpleNamespace

from spanprof.report.part_diagnosis import changes_part, command
from spanprof.report.part_places import source_part
from spanprof.report.tests import worked
from spanprof.report.tests.test_part_diagnosis import reported
from spanprof.report.tests.test_parts import seen
from spanprof.whatif.requests import Request


class Changes(unittest.TestCase):
    def test_each_change_has_a_row_with_its_line(self):
        part = changes_part(SimpleNamespace(diagnosis=reported(), name="image.spanprof"))
        words = seen(part)
        self.assertEqual(part.count('class="where change"'), 2)
        self.assertIn("depend(in: tab[f(0, 1)]) at image.c:9 if only read, or a copy for each "
                      "spanprof-whatif image.spanprof "
                      "--in-for-inout a0 --threads 4 copy 60.0 ms 40 % 50.0 ms and 70.0 ms", words)

    def test_nothing_without_a_diagnosis(self):
        self.assertEqual(changes_part(worked.view("mesh")), "")

    def test_a_name_is_quoted_for_the_shell(self):
        self.assertEqual(command("mesh.tasks", 2, [Request("drop-name", "x y")]),
                         "spanprof-whatif mesh.tasks --drop-name 'x y' --threads 2")


class Source(unittest.TestCase):
    def test_lines_with_shares(self):
        part = source_part(worked.view("mesh"))
        words = seen(part)
        self.assertRegex(words, r"task, lines 10 to 12 : 29.3 % of the work, 38.7 % of the span")
        self.assertIn("--heat:", part)

    def test_without_a_file(self):
        self.assertEqual(source_part(worked.view("plain")), "")
