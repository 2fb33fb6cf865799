#!/usr/bin/env python3
"""Which links are found, and which of them lead nowhere."""
import pathlib
import tempfile
import unittest

from links import anchor, faults, links


class Anchors(unittest.TestCase):
    def test_signs_go_and_blanks_become_hyphens(self):
        self.assertEqual(anchor("## Version 2: loops, `final`"), "version-2-loops-final")
        self.assertEqual(anchor("# A [link](to.md) and_more"), "a-link-and_more")


class Links(unittest.TestCase):
    def test_blocks_of_code_and_the_outside_are_left_out(self):
        text = "see [a](b.md#c) and [d](https://e.org)\n```\n[f](g)\n```\n![h](i.png)\n"
        self.assertEqual(list(links(text)), [(1, "b.md#c"), (5, "i.png")])


class Faults(unittest.TestCase):
    def test_files_and_headings(self):
        with tempfile.TemporaryDirectory() as folder:
            here = pathlib.Path(folder).resolve() / "here.md"
            here.write_text("# One thing\n[1](#one-thing) [2](#two)\n[3](there.md) [4](here.md#one-thing)\n")
            self.assertEqual(list(faults(here, pathlib.Path.read_text)),
                             [(2, "#two", "no such heading"), (3, "there.md", "no such file")])


if __name__ == "__main__":
    unittest.main()
