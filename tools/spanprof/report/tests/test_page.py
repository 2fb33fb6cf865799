"""Whole pages of the worked programs, and that the comparison sees what is wrong on one."""
import json
import os
import re
import unittest
from dataclasses import replace

from spanprof.report.tests import worked
from spanprof.report.tests.compare import differences, faults_of, is_seen, program_of
from spanprof.report.tests.page_reader import read_page

README = os.path.join(os.path.dirname(os.path.dirname(__file__)), "README.md")


def compared(text, name):
    return differences(text, worked.path(name + ".tasks"), worked.Kept())


class Pages(unittest.TestCase):
    def setUp(self):
        patch = worked.patched()
        patch.start()
        self.addCleanup(patch.stop)

    def test_every_number_is_an_answer_or_a_sum(self):
        for name in worked.TEXTS:
            wrong, count = compared(worked.page_text(name), name)
            self.assertEqual(wrong, [])
            self.assertGreater(count, 100)

    def test_no_other_file_is_needed(self):
        text = worked.page_text("split")
        self.assertNotIn("light-dark(", text)   # which older browsers do not take
        self.assertIsNone(re.search(r'(src|href)="(?!#)|@import|url\((?!#)|https?://', text))

    def test_parts(self):
        text = worked.page_text("mesh")
        names = re.findall(r'<section id="(\S+)"', text)
        self.assertEqual(names, ["summary", "timeline", "places", "speedup", "source", "numbers"])
        self.assertEqual(text.count("<section"), text.count("<section id="))

    def test_parts_have_rows_in_the_readme(self):
        text = worked.page_text("mesh")
        with open(README, encoding="utf-8") as file:
            rows = re.findall(r"(?m)^\| ([A-Z][^|]*) \|", file.read())
        for title in re.findall("<h2>(.*?)</h2>", text):
            self.assertTrue(any(title.startswith(row) for row in rows), "%s has no row for %r" % (README, title))

    def test_words_of_a_text_are_words_on_the_page(self):
        text = worked.page_text("odd")
        self.assertNotIn("<img", text)
        self.assertEqual(text.count("</script>"), 2)
        self.assertIn("odd &lt;/script&gt; thing: span too low", text)

    def test_names_cannot_end_the_data(self):
        data = read_page(worked.page_text("mesh")).data
        self.assertEqual(json.loads(data)["name"], "mesh.tasks")
        self.assertNotIn("<", data)


class WrongNumbers(unittest.TestCase):
    def setUp(self):
        patch = worked.patched()
        patch.start()
        self.addCleanup(patch.stop)
        self.text = worked.page_text("split")

    def faults(self, old, new):
        self.assertIn(old, self.text)
        return compared(self.text.replace(old, new, 1), "split")[0]

    def test_each_wrong_value_is_found(self):
        reader = read_page(self.text)
        program = program_of(reader, worked.path("split.tasks"), worked.Kept())
        whole = [figure for figure in reader.figures if figure.exact.isdigit()]
        self.assertGreater(len(whole), 25)
        for figure in whole:
            self.assertEqual(faults_of(figure, program), [])
            self.assertTrue(faults_of(replace(figure, exact=str(int(figure.exact) + 1)), program))

    def test_a_wrong_number_that_only_a_reader_sees(self):
        self.assertEqual(len(self.faults(">37 µs<", ">38 µs<")), 1)

    def test_a_wrong_tooltip(self):
        end = "1.00 times; the greedy schedule ends at %d"
        self.assertTrue(self.faults(end % 37, end % 36))

    def test_a_name_may_have_digits(self):
        self.assertEqual(self.faults("<title>split", "<title>split_14"), [])

    def test_a_number_without_a_source(self):
        faults = self.faults("Slack is the delay that a segment can bear.", "Slack is 31.")
        self.assertEqual(len(faults), 1)
        self.assertIn("Slack is 31.", faults[0])

    def test_another_greedy_run(self):
        data = json.loads(read_page(self.text).data)
        starts = data["runs"]["greedy"]["starts"]
        self.assertEqual(self.faults('"greedy":{"starts":"%s"' % starts, '"greedy":{"starts":"1%s"' % starts),
                         ["split.tasks: the greedy schedule that is drawn is another"])

    def test_another_recorded_run(self):
        lanes = json.loads(read_page(self.text).data)["runs"]["recorded"]["lanes"]
        other = lanes.replace("0", "2").replace("1", "0").replace("2", "1")
        self.assertIn("split.tasks: the recorded run that is drawn is another",
                      self.faults('"lanes":"%s"' % lanes, '"lanes":"%s"' % other))


class Small(unittest.TestCase):
    def test_as_many_digits_as_are_shown(self):
        self.assertTrue(is_seen("1,234.5", 1234.52))
        self.assertTrue(is_seen("−9.8", -9.756))
        self.assertTrue(is_seen("+12.0", 12))
        self.assertFalse(is_seen("1,234", 1235))

    def test_a_bound_is_seen_rounded_its_way(self):
        self.assertTrue(is_seen("1.33", 41 / 31, "up"))
        self.assertTrue(is_seen("1.32", 41 / 31, "down"))
        self.assertTrue(is_seen("1.10", 1.1, "up"))
        self.assertFalse(is_seen("1.32", 41 / 31, "up"))
        self.assertFalse(is_seen("1.33", 41 / 31, "down"))
