#!/usr/bin/env python3
"""Tests of version.py."""
import unittest

from version import ABOUT, faults

VERSION = "0.1.0\nlogic 0123456789abcdef\n"
CHANGES = "# Changes\n\n## 0.1.0 (not released)\n"
PACKAGES = {"spanprof.pc": "Name: spanprof\nVersion: 0.1.0\n"}


class Versions(unittest.TestCase):
    def test_all_agree(self):
        self.assertEqual(list(faults(VERSION, CHANGES, PACKAGES, {"a.md": "with `logic 0123456789abcdef`"})), [])

    def test_another_logic(self):
        self.assertEqual(list(faults(VERSION, CHANGES, PACKAGES, {ABOUT: '"spanprof_large 0.2.0 (none)"'})),
                         [ABOUT + " has not version 0.1.0 with its logic"])
        self.assertEqual(list(faults(VERSION, CHANGES, PACKAGES, {"a.md": "logic 1123456789abcdef"})),
                         ["a.md names logic 1123456789abcdef"])

    def test_another_version(self):
        self.assertEqual(list(faults(VERSION, "## 0.2.0\n", PACKAGES, {})),
                         ["CHANGELOG.md begins with 0.2.0, and VERSION has 0.1.0"])

    def test_another_version_of_the_package(self):
        self.assertEqual(list(faults(VERSION, CHANGES, {"spanprof.pc": "Version: 0.2.0"}, {})),
                         ["spanprof.pc has not version 0.1.0"])

    def test_no_version(self):
        self.assertEqual(len(list(faults("0.1\n", CHANGES, PACKAGES, {}))), 1)


if __name__ == "__main__":
    unittest.main()
