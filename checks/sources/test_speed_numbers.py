"""Tests of speed_numbers.py: python3 -m unittest checks/sources/test_speed_numbers.py"""
import pathlib
import sys
import unittest

sys.path.insert(0, str(pathlib.Path(__file__).resolve().parent))
from speed_numbers import (differences, measured, nearest_tenth, quoted, range_differences, rounded, timed, unreported,
                           written)

README = """\
### How fast it is

Millions. In processor time these rows
took 0.9 to 1.7 times as long as it.

| Text | `span` | plain | `curve --upto 64` | plain |
|---|---|---|---|---|
| one after another (`chain`) | 9 | 4 | 1,532 | 27 |
| many (`fan`) | 75 | 45 | 609 | 444 |

### Something else

| Text | `span` | plain |
|---|---|---|
| not reported (`other`) | 1 | 2 |
"""
TABLE = """\
## Instructions

text           command               spanprof     plain  times
chain          span                       9.4       3.5   2.69
chain          curve --upto 64         1531.5      27.4  55.89
fan            span                      75.0      45.0   1.67
fan            check                    197.7     131.4   1.51

## Times and memory

text           command                     ms  plain ms  times      MiB    plain  times
chain          span                      19.4      13.5   1.44      6.0      3.6   1.68
chain          curve --upto 64           22.3      13.5   1.65     50.0      3.6   9.02
chain          check                     90.0      10.0   9.00      6.0      3.6   1.68
fan            span                      12.7      13.5   0.94      6.0      3.6   0.68
fan            curve --upto 64          123.4     120.0   1.03      6.0      3.6   1.68
"""


class Numbers(unittest.TestCase):
    def test_what_is_reported(self):
        self.assertEqual(quoted(README), {
            ("chain", "span"): (9, 4), ("chain", "curve --upto 64"): (1532, 27),
            ("fan", "span"): (75, 45), ("fan", "curve --upto 64"): (609, 444)})

    def test_what_was_measured(self):
        self.assertEqual(measured(TABLE), {
            ("chain", "span"): ("9.4", "3.5"), ("chain", "curve --upto 64"): ("1531.5", "27.4"),
            ("fan", "span"): ("75.0", "45.0"), ("fan", "check"): ("197.7", "131.4")})

    def test_halves_go_up(self):
        self.assertEqual([rounded(tenths) for tenths in ("0.4", "0.5", "3.5", "9.9")], [0, 1, 4, 10])

    def test_what_differs_is_named(self):
        self.assertEqual(list(differences(quoted(README), measured(TABLE))), ["fan curve --upto 64: not in the table"])
        wrong = measured(TABLE)
        wrong["fan", "span"], wrong["fan", "curve --upto 64"] = ("75.6", "45.0"), ("609.0", "443.4")
        self.assertEqual(list(differences(quoted(README), wrong)), [
            "fan span, spanprof: 75 is reported, and 75.6 was measured",
            "fan curve --upto 64, plain: 444 is reported, and 443.4 was measured"])


class Written(unittest.TestCase):
    TABLE = TABLE.replace(" 1531.5      27.4 ", " 2531.5      27.5 ").replace("  75.0      45.0 ", "   9.0      44.6 ")

    def test_the_rows_have_the_numbers_of_the_table(self):
        self.assertEqual(written(README, measured(self.TABLE)), README.replace("| 1,532 | 27 |", "| 2,532 | 28 |")
                         .replace("| 75 | 45 |", "| 9 | 45 |"))

    def test_numbers_that_the_table_lacks_stay(self):
        self.assertEqual(written(README, measured(TABLE)), README)
        self.assertEqual(written(README, {}), README)


class Places(unittest.TestCase):
    PLACE = README.replace("| 75 | 45 | 609 | 444 |", "| – | – | – | – |")

    def test_a_place_tells_nothing(self):
        self.assertEqual(quoted(self.PLACE), {("chain", "span"): (9, 4), ("chain", "curve --upto 64"): (1532, 27)})

    def test_numbers_that_have_a_place(self):
        self.assertEqual(list(unreported(self.PLACE, measured(TABLE))),
                         ["fan span: not reported, and 75.0 and 45.0 were measured"])
        self.assertEqual(list(unreported(self.PLACE, {})), [])
        self.assertEqual(list(unreported(README, measured(TABLE))), [])

    def test_they_are_put_there(self):
        self.assertEqual(written(self.PLACE, measured(TABLE)),
                         README.replace("| 75 | 45 | 609 | 444 |", "| 75 | 45 | – | – |"))

    def test_half_a_pair_is_no_place(self):
        with self.assertRaises(ValueError):
            quoted(README.replace("| 75 | 45 |", "| 75 | – |"))


class Times(unittest.TestCase):
    def range_of(self, readme, table=TABLE):
        return list(range_differences(readme, quoted(readme), timed(table)))

    def test_what_was_timed(self):
        self.assertEqual(timed(TABLE), {
            ("chain", "span"): "1.44", ("chain", "curve --upto 64"): "1.65", ("chain", "check"): "9.00",
            ("fan", "span"): "0.94", ("fan", "curve --upto 64"): "1.03"})

    def test_the_nearest_tenth(self):
        reported = [nearest_tenth(hundredths) for hundredths in ("0.94", "0.95", "1.65", "10.04")]
        self.assertEqual(reported, ["0.9", "1.0", "1.7", "10.0"])

    def test_the_range_of_the_rows_that_are_reported(self):
        self.assertEqual(self.range_of(README), [])
        for other in ("0.8 to 1.7", "0.9 to 1.6", "1.0 to 9.0"):
            self.assertEqual(self.range_of(README.replace("0.9 to 1.7", other)),
                             [other + " times is reported, and 0.94 to 1.65 was measured"])

    def test_the_greatest_number_is_not_the_last_word(self):
        slow = TABLE.replace("   1.03 ", "  10.20 ")
        self.assertEqual(self.range_of(README.replace("to 1.7", "to 10.2"), slow), [])

    def test_no_sentence(self):
        self.assertEqual(self.range_of(README.replace("took", "need")),
                         ["no sentence says how many times as long these rows took"])

    def test_a_row_that_was_not_timed(self):
        fewer = "".join(row for row in TABLE.splitlines(True) if " 12.7 " not in row)
        self.assertEqual(self.range_of(README, fewer), ["fan span: not in the table of times"])


if __name__ == "__main__":
    unittest.main()
