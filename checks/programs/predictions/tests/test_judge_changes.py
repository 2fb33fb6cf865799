import unittest
from typing import NamedTuple

from changes import MADE, SAME_CODE
from judge_changes import AFTER, Row, changed, lines, requests, table
from judging import Judged

from spanprof.predict.recorded import recorded_as
from spanprof.program_text import statements

TEXT = """# recorded: {"program": "a", "threads": 4, "unit": "ns"}
# region: {"at": "a.c:9", "number": 1, "of": 1}
omptasks 1
work 5
task {  # a.c:1
work 100
}
taskwait  # a.c:3
task {  # a.c:1
work 60
}
"""


class Change(NamedTuple):
    changes: tuple


class Changed(unittest.TestCase):
    def test_the_text_and_what_was_reported_beside_it(self):
        one = recorded_as(TEXT, "a.tasks", 7)
        one.arrivals, one.dispatch = (0, 3), 4
        other = changed(Change((("drop-wait", "taskwait at a.c"), ("factor", "task at a.c:1=0.5"))), one)
        self.assertEqual((other.outside, other.arrivals, other.dispatch, other.threads), (7, (0, 3), 4, 4))
        self.assertNotIn("taskwait", [statement.kind for statement in statements(other.text.splitlines(True))])
        self.assertEqual(other.work, 5 + 50 + 30)

    def test_a_grain_is_a_part_of_the_largest_piece(self):
        asked = requests(Change((("grain", "task at a.c:1=3"),)), TEXT.splitlines(True))
        self.assertEqual([one.word for one in asked], ["task at a.c:1=34"])

    def test_every_program_once(self):
        names = [made.name for made in MADE]
        self.assertEqual(len(names), len(set(names)))
        self.assertLessEqual(set(SAME_CODE), set(names))


def row(name, true, errors, times):
    reported = [Judged(name, turn, AFTER, true * (1 + error), 0.9 * true, 1.1 * true, 0.0, true)
                for turn, error in enumerate(errors, 1)]
    return Row(name, true, reported, reported[0], times)


class Told(unittest.TestCase):
    def test_lines(self):
        rows = [row("a", 100, [0.02, -0.04], [99, 101]), row("b", 100, [0.3], [100])]
        (is_met, words), (_, by_all) = lines("changed", rows, AFTER)
        self.assertFalse(is_met)
        self.assertIn("all recordings: median 16.0 % (5), nine of ten 30.0 %", by_all)
        self.assertEqual(words, "changed, one recording: median 4.0 % (5), nine of ten 30.0 % (20), worst 30.0 %, "
                                "covered 3 of 3")
        self.assertEqual([is_met for is_met, _ in lines("changed", rows[:1], AFTER)], [True, True])

    def test_a_row(self):
        one = row("a", 1e6, [0.02], [0.9e6, 1.1e6])
        self.assertEqual(list(table([(one, one)])), [
            "a              1.000 (  0.900 to   1.100)    +2.0 |    1.000 (  0.900 to   1.100)    +2.0"])


if __name__ == "__main__":
    unittest.main()
