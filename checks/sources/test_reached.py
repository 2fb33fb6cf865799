#!/usr/bin/env python3
"""Which files changes concern: by imports, and by texts that name a file."""
import unittest

from reached import reached
from style import TOP

TESTS = TOP / "tools" / "spanprof" / "tests"
TEXT, READER, TEST = TOP / "tools/spanprof/text.py", TOP / "tools/spanprof/reader.py", TESTS / "test_reader.py"
SCRIPT, OTHER = TOP / "checks/one/check.py", TOP / "checks/two/other.py"
SOURCES = {TEXT: "import os\n", READER: "from spanprof.text import a\n", OTHER: "def f():\n    return 1\n",
           TEST: "from spanprof import reader\n",
           SCRIPT: "import sys\nsys.path.append(x)\nimport other\nFILES = glob('*.json')\n"}


class Reached(unittest.TestCase):
    def concerned(self, *names, sources=SOURCES):
        return reached(sources, {TOP / name for name in names})

    def test_by_imports_of_imports(self):
        self.assertEqual(self.concerned("tools/spanprof/text.py"), {TEXT, READER, TEST})
        self.assertEqual(self.concerned("tools/spanprof/reader.py"), {READER, TEST})

    def test_from_a_folder_that_is_added(self):
        self.assertEqual(self.concerned("checks/two/other.py"), {OTHER, SCRIPT})

    def test_by_a_text(self):
        for text in ("'two/other.py'", "'spanprof.text'", "'spanprof-record'", "'*.rt'"):
            changed = ("checks/two/other.py", "tools/spanprof/text.py", "tools/spanprof-record", "crates/a/src/b.rt")
            found = self.concerned(*changed, sources={**SOURCES, SCRIPT: "run(%s)\n" % text})
            self.assertIn(SCRIPT, found, text)
        self.assertNotIn(SCRIPT, self.concerned("README.md", sources={**SOURCES, SCRIPT: "'see README.md for it'\n"}))

    def test_what_is_no_python_concerns_what_is_around(self):
        self.assertEqual(self.concerned("checks/one/made.json"), {SCRIPT})
        self.assertEqual(self.concerned("checks/two/kept/made.txt"), {OTHER, SCRIPT})
        self.assertEqual(self.concerned("tools/spanprof/page.css"), {TEXT, READER, TEST})
        self.assertEqual(self.concerned("tools/openmp_recorder/recorder/ticks.cpp"), set())

    def test_a_file_that_is_gone(self):
        gone = {path: source for path, source in SOURCES.items() if path != OTHER}
        self.assertEqual(self.concerned("checks/two/other.py", sources=gone), {SCRIPT})


if __name__ == "__main__":
    unittest.main()
