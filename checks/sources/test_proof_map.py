"""Tests of proof_map.py: python3 -m unittest checks/sources/test_proof_map.py"""
import pathlib
import sys
import unittest

sys.path.insert(0, str(pathlib.Path(__file__).resolve().parent))
from proof_map import Crate, faults, function_of, page_of, purpose_of

LOW = Crate("low", {
    "Lib.antt": "pub mod Lists\n\n-- Sums of lists\nmod Sums\n",
    "Lists.antt": "-- Lists that ascend. Each is short.\nuse Rattle.std.proofs.Common.{refl}\n",
    "Sums.antt": "-- The sum of a list\n-- from a place on.\nuse Rattle.low.proofs.Lists.{ascends}\n",
    "table/Table/push/Answers.antt": "use Rattle.low.proofs.Sums.{one_more}\n",
    "laws/one_sum/Answers.antt": "use Rattle.low.proofs.Lists.{ascends}\n",
})
HIGH = Crate("high", {"run/+walking/Invariants.antt": "use Rattle.low.proofs.Lists.{ascends}\n"})


class ProofMap(unittest.TestCase):
    def test_purpose_is_the_first_sentence(self):
        self.assertEqual(purpose_of("-- Lists that ascend. Each is short.\nuse X\n"), "Lists that ascend")
        self.assertEqual(purpose_of("-- The sum of a list\n-- from a place on.\n"), "The sum of a list from a place on")
        self.assertEqual(purpose_of("use X\n"), "")

    def test_functions_by_their_path(self):
        self.assertEqual(function_of("table/Table/push/Answers.antt"), "Table::push")
        self.assertEqual(function_of("table/push/Answers.antt"), "push")
        self.assertEqual(function_of("laws/one_sum/Answers.antt"), "laws::one_sum")
        self.assertEqual(function_of("run/+walking/Invariants.antt"), "+walking")

    def test_rows_name_what_a_file_stands_on_and_serves(self):
        page = page_of([LOW, HIGH], ["low", "high"])
        self.assertIn("| `Lists` | Lists that ascend |  | `laws::one_sum`, `high::+walking` |", page)
        self.assertIn("| `Sums` | The sum of a list from a place on | `Lists` | `Table::push` |", page)

    def test_comments_of_the_library_are_headings(self):
        self.assertEqual(LOW.rooms, [("", ["Lists"]), ("Sums of lists", ["Sums"])])
        self.assertIn("\n\n### Sums of lists\n\n| File |", page_of([LOW, HIGH], ["low", "high"]))

    def test_a_crate_without_lemmas_has_no_section(self):
        self.assertNotIn("## `high`", page_of([LOW, HIGH], ["low", "high"]))

    def test_only_named_crates_are_printed(self):
        self.assertEqual(page_of([LOW, HIGH], ["high"]), "\n")

    def test_nothing_is_wrong(self):
        self.assertEqual(list(faults([LOW, HIGH])), [])

    def test_a_tactic_of_the_source_cites_too(self):
        files = {"Lib.antt": "mod Quick\n", "Quick.antt": "-- Quick answers\n"}
        self.assertEqual(list(faults([Crate("one", files, "using(crate::proofs::Quick::apart)")])), [])

    def test_files_without_a_word_or_a_reader_are_named(self):
        alone = Crate("alone", {"Lib.antt": "mod Silent\n", "Silent.antt": "use X\n", "Left.antt": "-- Left out\n"})
        self.assertEqual(list(faults([alone])), [
            "alone/proofs/Silent.antt does not say what it is for", "alone/proofs/Silent.antt: no proof cites it",
            "alone/proofs/Left.antt is not in Lib.antt"])


if __name__ == "__main__":
    unittest.main()
