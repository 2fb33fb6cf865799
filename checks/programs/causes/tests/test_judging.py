import unittest

from judging import Answer, answer_of, gain_of, judged, numbers_of
from programs import Program

WAIT = Program("wait", "wait", "/top/wait.cpp", (52, 53))
ANSWER = Answer("wait", "wait.cpp", (52, 52), 60.0)


class Judging(unittest.TestCase):
    def test_lines_in_several_forms(self):
        for lines in (35, "35", [35, 35], "35-35"):
            self.assertEqual(numbers_of(lines), (35, 35))
        self.assertEqual(numbers_of([[18, 25], [40, 41]]), (18, 41))
        self.assertEqual(numbers_of(None), ())

    def test_gain(self):
        self.assertEqual(gain_of({"from_ms": 80.0, "to_ms": 20.0}), 75)
        self.assertIsNone(gain_of({"from_ms": 80.0, "to_ms": None}))
        self.assertIsNone(gain_of(None))

    def test_the_first_cause_counts(self):
        reported = {"diagnosis": [{"kind": "wait", "place": {"file": "/a/wait.cpp", "lines": "52", "function": "main"},
                                   "change": {"from_ms": 100, "to_ms": 40}}, {"kind": "serial"}]}
        self.assertEqual(answer_of(reported), ANSWER)
        self.assertEqual(answer_of({"diagnosis": []}), Answer("efficient", "", (), None))

    def test_right(self):
        self.assertTrue(judged(WAIT, ANSWER, 66.0, True).is_right)

    def test_another_kind_place_or_gain(self):
        self.assertFalse(judged(WAIT, ANSWER._replace(kind="serial"), 66.0, True).is_right)
        self.assertFalse(judged(WAIT, ANSWER._replace(lines=(40, 50)), 66.0, True).is_right)
        self.assertFalse(judged(WAIT, ANSWER._replace(file="other.cpp"), 66.0, True).is_right)
        self.assertFalse(judged(WAIT, ANSWER, 71.0, True).is_right)

    def test_a_line_beside_a_marked_one(self):
        self.assertTrue(judged(WAIT, ANSWER._replace(lines=(54, 60)), 66.0, True).is_place)

    def test_a_gain_is_not_compared_on_a_busy_machine(self):
        self.assertIsNone(judged(WAIT, ANSWER, 0.0, False).is_gain)

    def test_without_a_place_any_will_do(self):
        self.assertTrue(judged(WAIT._replace(kind="efficient", lines=()), Answer("efficient", "", (), None), 0.0,
                               True).is_right)


if __name__ == "__main__":
    unittest.main()
