"""Tests of limits.py: python3 -m unittest checks/sources/test_limits.py"""
import pathlib
import sys
import unittest

sys.path.insert(0, str(pathlib.Path(__file__).resolve().parent))
from limits import declared, fixed, imported, without_law

SOURCE = """/// Rows.
pub const MOST_ROWS: u32 = 4_000_000_000;
const MOST_NAMES: usize = 64;
pub const HELP: &[u8] = b"";
"""
NUMBERS = {"low.limits.MOST_ROWS", "low.limits.MOST_NAMES"}
CITED = "use Rattle.low.specs.declared.limits.TheConstants.{MOST_ROWS,\n    MOST_NAMES, HELP}\n"
LAW = """ghost use Rattle.low.specs.declared.limits.TheConstants.{MOST_ROWS};
pub fn limits()
    ensures rows { MOST_ROWS ≡ 4_000_000_000 }
{}
"""


class Limits(unittest.TestCase):
    def test_constants_that_are_numbers(self):
        self.assertEqual(declared("low", "limits", SOURCE), NUMBERS)

    def test_constants_that_a_definition_cites(self):
        self.assertEqual(set(imported(CITED).values()), NUMBERS | {"low.limits.HELP"})

    def test_numbers_of_a_law(self):
        self.assertEqual(fixed(LAW), {"low.limits.MOST_ROWS"})
        self.assertEqual(fixed(LAW.replace("4_000_000_000", "10 ^ 9 - 1")), {"low.limits.MOST_ROWS"})
        self.assertEqual(fixed(LAW.replace("4_000_000_000", "MOST_ROWS")), set())
        self.assertEqual(fixed(LAW.replace("≡", "≤")), set())

    def test_constants_without_a_law(self):
        self.assertEqual(without_law(NUMBERS, [CITED], [LAW]), ["low.limits.MOST_NAMES"])
        self.assertEqual(without_law(NUMBERS, [CITED], []), ["low.limits.MOST_NAMES", "low.limits.MOST_ROWS"])
        self.assertEqual(without_law(NUMBERS, [], []), [])


if __name__ == "__main__":
    unittest.main()
