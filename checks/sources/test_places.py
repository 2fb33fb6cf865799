#!/usr/bin/env python3
"""Tests of places.py."""
import pathlib
import sys
import unittest

sys.path.insert(0, str(pathlib.Path(__file__).resolve().parent))
from places import NO_CODE, causes, commands, events, faults, gone, listed, log_faults, named, statements

PROGRAM = '''
    let command = with_command(command, Command::new(alloc, "span"))?;
    let command = with_command(command, with_option(alloc, "greedy", "threads")?)?;
    with_command(command, with_changes(alloc, "whatif")?)
    Command::new(alloc, "spanprof")
'''
WORDS = '''
is_type_word text = is_text text (codes "in")

is_statement_word text =
    (is_text text (codes "work") || is_text text (codes "taskwait"))
    || is_text text (codes "taskgroup")

type_word DependIn = codes "in"
'''
PAGE = '''
## To add a command

It takes these:

| Where | What |
|---|---|
| `crates/words`: `src/a.rt`, `specs/A.antt` | a case of `Request` |
| `README.md` | a row |

## To add a test

| Where |
|---|
| `elsewhere` |
'''


class Places(unittest.TestCase):
    def test_words(self):
        self.assertEqual(commands(PROGRAM), {"span", "greedy", "whatif"})
        self.assertEqual(statements(WORDS), {"work", "taskwait", "taskgroup"})
        self.assertEqual(causes('Cause("lock", 0.1)\nCause("small_tasks", 0.1)'), {"small_tasks"})
        self.assertEqual(events("enum class RecordKind : uint8_t {\n  Nothing,  // none\n  LockGot,\n  Cancel\n};\n"),
                         {"recordkind::lockgot", "recordkind::cancel"})

    def test_the_log_is_described(self):
        kinds = "enum class RecordKind : uint8_t {\n  Nothing,  // none\n  LockGot,\n  Cancel,\n  Sample\n};\n"
        page = "This is version 3.\n\n| Kind | What |\n|---|---|\n| 1%s | locks |\n\n| 2 | other |\n"
        self.assertEqual(list(log_faults(kinds, "int version = 3;", page % ", 2")), [])
        self.assertEqual(list(log_faults(kinds, "int version = 4;", page % "")),
                         ["LOG.md and log_form.hpp have different versions of the log",
                          "LOG.md has no row for the kind 2, Cancel"])

    def test_what_a_text_names(self):
        words = {"span", "greedy", "whatif", "curve"}
        self.assertEqual(named(words, "the span of a WhatIf, Greedy_runs"), {"whatif", "greedy"})
        self.assertEqual(named(words, "precurve"), set())

    def test_listed_places(self):
        self.assertEqual(list(listed(PAGE, "To add a command")),
                         ["crates/words/src/a.rt", "crates/words/specs/A.antt", "README.md"])

    def test_what_does_not_agree(self):
        files = {"a/b.rt": "greedy curve", "a/c.rt": "curve", "d.rt": "curve greedy", "e.rt": "nothing"}
        words = {"greedy", "curve"}
        self.assertEqual(list(faults("command", ["a", "d.rt"], files, words, 2)), [])
        self.assertEqual(list(faults("command", ["a/c.rt", "d.rt", "e.rt"], files, words, 2)),
                         ["a/b.rt has a place for each command, and CONTRIBUTING.md does not list it",
                          "CONTRIBUTING.md lists e.rt, which names no command"])

    def test_what_is_gone(self):
        page = "- **A part**: `tools/part_NAME.py`, `figures.py`, `parts` of `old.py`; `report/`; `OF.md` and `2 > 1.x`"
        paths = ["tools/part_bars.py", "tools/report/figures.py", "tools/threshold.py", "OF.md"]
        self.assertEqual(list(gone(page, paths)), ["CONTRIBUTING.md names old.py, which does not exist"])

    def test_what_is_code(self):
        for path in ("crates/large_text/src/place_tests.rt", "tools/openmp_recorder/converter/compose.cpp",
                     "bench/large.sh"):
            self.assertIsNone(NO_CODE.search(path), path)
        for path in ("docs/MODEL.md", "crates/text_tests/src/tests/a.rt", "tools/tests/a.py", "checks/agree/test_a.py",
                     "tools/openmp_recorder/tests/test_a.cpp", "examples/a.c", "checks/recorders/openmp_cases/a.c"):
            self.assertIsNotNone(NO_CODE.search(path), path)


if __name__ == "__main__":
    unittest.main()
