import unittest

from believed.clauses import promises_of
from believed.definitions import arms_of, definitions_of, imports_of
from believed.library import Library
from believed.page import with_lists

LOW = """-- Numbers.
use Rattle.std.specs.Prelude.{ℕ}

-- twice
-- as much
abbrev pub twice : ℕ → ℕ
twice n = n + n

pub data Side : Type 0 where
  Left : Side
  Right : Side

abbrev other : ℕ → ℕ
other n = n
"""
HIGH = """use Rattle.low.specs.Numbers.{twice as doubled}
use Rattle.low.specs.Numbers as low

abbrev pub four_times : ℕ → ℕ
four_times n = doubled (doubled n)

abbrev pub side : low.Side
side = low.Left
"""
CODE = """ghost use Rattle.high.specs.More.{four_times};
/// Doc with a brace {.
pub fn quadruple(n: u32) -> u32
    requires { n < 4 }
    // A comment with a brace {.
    ensures { result ≡ four_times n }
{
    b'{'
}

fn hidden() ensures { four_times } {}

pub fn bare() -> u32 { four_times }

impl Model for Pair {
    ghost view = { λ p. four_times p };
}

impl Pair {
    pub fn left(&self) -> u32
        ensures { result ≡ self }
    { 0 }
}
"""


class Definitions(unittest.TestCase):
    def test_each_with_its_comment(self):
        found = definitions_of("low.specs.Numbers", LOW)
        self.assertEqual(list(found), ["twice", "Side", "other"])
        self.assertEqual(found["twice"].lines, 4)
        self.assertEqual(found["Side"].lines, 3)

    def test_arms_of_a_data(self):
        found = definitions_of("low.specs.Numbers", LOW)
        self.assertEqual(arms_of(found["Side"]), ["Left", "Right"])
        self.assertEqual(arms_of(found["twice"]), [])

    def test_imports_by_the_name_here(self):
        self.assertEqual(imports_of(HIGH),
                         {"doubled": ("low.specs.Numbers", "twice"), "low": ("low.specs.Numbers", None)})

    def test_strings_and_comments_cite_nothing(self):
        words = definitions_of("m", 'abbrev a : X\na = codes "---" ++ tail -- not this')["a"].words
        self.assertIn("tail", words)
        self.assertNotIn("this", words)


class Promises(unittest.TestCase):
    def setUp(self):
        self.found = {promise.title: promise for promise in promises_of("high", CODE)}

    def test_public_functions_with_clauses_alone(self):
        self.assertEqual(list(self.found), ["high::quadruple", "high::Pair::left"])

    def test_all_clauses_and_no_body(self):
        self.assertIn("n < 4", self.found["high::quadruple"].clauses)
        self.assertIn("four_times", self.found["high::quadruple"].clauses)
        self.assertNotIn("b'", self.found["high::quadruple"].clauses)

    def test_a_method_rests_on_its_types_view(self):
        self.assertIn("four_times", self.found["high::Pair::left"].clauses)


class Walk(unittest.TestCase):
    def setUp(self):
        self.library = Library([("low.specs.Numbers", LOW), ("high.specs.More", HIGH)])
        self.promises = {promise.title: promise for promise in promises_of("high", CODE)}

    def test_what_a_promise_rests_on_through_other_names(self):
        found = self.library.rests_on(self.promises["high::quadruple"])
        self.assertEqual([definition.name for definition in found], ["twice", "four_times"])

    def test_a_path_into_a_module(self):
        meaning = self.library.meaning(self.library.imports["high.specs.More"], "high.specs.More", "low.Side")
        self.assertEqual(meaning, ("low.specs.Numbers", "Side"))

    def test_a_page_lists_what_is_new(self):
        page = "`high::quadruple`: 9 lines, none new.\n\n- `low`: `Old`,\n  `Older`\n\nA word.\n"
        self.assertEqual(with_lists(page, self.library, self.promises),
                         "`high::quadruple`: 6 lines, all new.\n\n- `low`: `Numbers`; `high`: `More`\n\nA word.\n")
        again = page + "\n`high::quadruple`: 1 lines, 1 new.\n"
        self.assertTrue(with_lists(again, self.library, self.promises).endswith("6 lines, none new.\n"))


if __name__ == "__main__":
    unittest.main()
