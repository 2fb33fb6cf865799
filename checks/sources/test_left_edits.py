#!/usr/bin/env python3
"""Tests of left_edits.py, on a crate of one file."""
import tempfile
import unittest
from pathlib import Path

from left_edits import changes, faults, main

EDIT = "file: src/lib.rt\nold: a < b\nnew: a <= b\n"


class LeftEdits(unittest.TestCase):
    def setUp(self):
        self.top = Path(self.enterContext(tempfile.TemporaryDirectory()))
        (self.top / "crates/one/src").mkdir(parents=True)
        (self.top / "checks/edits/one").mkdir(parents=True)
        (self.top / "crates/one/src/lib.rt").write_text("fn f() { a < b }\nfn g() { b < a }\n")

    def faults_of(self, text):
        edit = self.top / "checks/edits/one/wrong.edit"
        edit.write_text(text)
        return list(faults(self.top / "crates/one", edit))

    def test_each_change_has_its_file(self):
        reported = list(changes(EDIT + "old: c\nnew:\n"))
        self.assertEqual(reported, [("src/lib.rt", "a < b", "a <= b"), ("src/lib.rt", "c", "")])

    def test_an_edit_that_applies(self):
        self.assertEqual(self.faults_of(EDIT), [])
        self.assertEqual(main(self.top), 0)

    def test_an_old_text_that_is_gone_or_there_twice(self):
        for old in ("a > b", "fn "):
            reported = self.faults_of(EDIT.replace("a < b", old))
            self.assertEqual(reported, ["an old text is not in src/lib.rt exactly once: " + old])
            self.assertEqual(main(self.top), 1)

    def test_changes_one_after_another(self):
        reported = self.faults_of(EDIT + "old: a <= b\nnew: b >= a\n")
        self.assertEqual(reported, [])

    def test_an_edit_of_nothing(self):
        self.assertEqual(self.faults_of("a remark\n"), ["it changes nothing"])
        self.assertEqual(self.faults_of("file: src/lib.rt\nold: a < b\nnew: a < b\n"), ["a new text is the old one"])

    def test_a_file_that_is_not_there(self):
        self.assertEqual(self.faults_of(EDIT.replace("lib", "two")), ["there is no file src/two.rt"])

    def test_the_edits_of_the_gate(self):
        folder = self.top / "crates/one/must-fail"
        folder.mkdir()
        (folder / "wrong.edit").write_text(EDIT)
        self.assertEqual(main(self.top), 0)
        (folder / "stale.edit").write_text(EDIT.replace("a < b", "a > b"))
        self.assertEqual(main(self.top), 1)

    def test_no_edits(self):
        self.assertEqual(main(self.top / "crates"), 1)


if __name__ == "__main__":
    unittest.main()
