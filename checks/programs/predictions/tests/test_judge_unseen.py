import contextlib
import io
import os
import pathlib
import re
import tempfile
import unittest
from functools import partial
from unittest import mock

import judge_unseen
import kept_unseen
from changes import MADE
from judge_unseen import (AFTER, BEFORE, CHANGED, FROM_FEWER, FROM_FOUR, Measured, Task, cell, in_groups, judge,
                          judge_all, judge_program, judged, line, read_measured, runs_of, table, tasks)
from judging import Judged
from quiet import Used
from runs import source_of
from unseen import SETS, unseen

from spanprof.predict.machine import Machine, write_machine
from spanprof.predict.recorded import recorded_as

TEXT = """# recorded: {"program": "words", "threads": 4, "unit": "ns"}
# region: {"at": "words.c:9", "number": 1, "of": 1}
omptasks 1
task {  # words.c:1
work 1000
}
taskwait  # words.c:3
work 600
"""
QUIET, BUSY = Used(0, 0.01, 1), Used(0.2, 0.1, 9)
NOTHING = Machine({1: {}}, {})


WORDS = unseen("words", ("task", "after taskwait at words.c"))


def programs():
    """Of all sets, each with the path of its source."""
    for name, several in SETS.items():
        for one in several:
            yield one, source_of(one, os.path.join("unseen", name))


def predicted(time, program="a", true=100):
    return Judged(program, 1, FROM_FOUR.case, time, time - 5, time + 5, 0.0, true)


def recorded(work):
    return recorded_as(TEXT.replace("work 1000", "work %d" % work), "words.4.1.tasks", 0)


def measured(times=(1650, 1600, 1700), works=(1000, 1200, 1100)):
    found = {("words", version, threads, turn): time + 1000 * (4 - threads)
             for version in (BEFORE, AFTER) for threads in (4, 3) for turn, time in enumerate(times, 1)}
    return Measured(found, dict.fromkeys(range(1, len(times) + 1), QUIET),
                    {("words", 4, turn): partial(recorded, work) for turn, work in enumerate(works, 1)})


def task():
    with mock.patch.object(judge_unseen, "UNSEEN", (WORDS,)):
        return list(tasks(measured(), NOTHING))[0]


def times_of(kind, together):
    return [(one.time, one.true, one.recordings) for one in judge_program(task())[kind, together]]


class Turns(unittest.TestCase):
    def test_quiet_ones_alone(self):
        watched = dict(enumerate([QUIET] * 5 + [BUSY], 1))
        self.assertEqual(Measured({}, watched, {}).turns, {1, 2, 3, 4, 5})
        self.assertEqual(Measured({}, {1: QUIET, 2: BUSY}, {}).turns, {1, 2})
        self.assertEqual(measured()._replace(watched={}).turns, {1, 2, 3})

    def test_runs_of_these_turns(self):
        found = runs_of(measured(), {1, 3}, "words")
        self.assertEqual(found[BEFORE, 4], [1650, 1700])
        self.assertEqual(found[AFTER, 3], [2650, 2700])
        self.assertEqual(runs_of(measured(), {1, 3}, "paths"), {})

    def test_groups_of_recordings(self):
        """What is left over does not count, nor turns without all of the case."""
        recordings = {(threads, turn): "%d.%d" % (threads, turn) for threads in (1, 2, 4) for turn in (1, 2, 3, 4)}
        del recordings[2, 3]
        self.assertEqual(list(in_groups(FROM_FOUR.case, recordings, 3)), [{4: ["4.1", "4.2", "4.3"]}])
        self.assertEqual(list(in_groups(FROM_FEWER.case, recordings, 2)), [{1: ["1.1", "1.2"], 2: ["2.1", "2.2"]}])
        self.assertEqual(list(in_groups(FROM_FOUR.case, {}, 1)), [])


class Predictions(unittest.TestCase):
    def test_single_recordings(self):
        """The median of the runs is true."""
        self.assertEqual(times_of(FROM_FOUR, 1), [(1600, 1650, 1), (1800, 1650, 1), (1700, 1650, 1)])
        self.assertEqual(times_of(FROM_FEWER, 1), [])

    def test_several(self):
        recordings = {(4, turn): recorded(work) for turn, work in enumerate((1000, 1200, 1100), 1)}
        self.assertEqual([(one.time, one.recordings) for one in judged(task(), recordings, FROM_FOUR, 3)], [(1700, 3)])
        self.assertEqual([one.time for one in judged(task(), recordings, FROM_FOUR, 2)], [1600])

    def test_the_change_is_made_to_the_text(self):
        """What follows the wait is a task, which nothing waits for."""
        recordings = {(4, 1): recorded(1100)}
        self.assertEqual([one.time for one in judged(task(), recordings, CHANGED, 1)], [1700])

    def test_all_kinds(self):
        found = judge_all([task()])
        self.assertEqual([(kind.name, together, len(several)) for (kind, together), several in found.items()], [
            ("4 from 4", 1, 3), ("4 from 1 and 2", 1, 0), ("changed, 4 from 4", 1, 3),
            ("4 from 4", 5, 0), ("4 from 1 and 2", 5, 0), ("changed, 4 from 4", 5, 0)])


class Told(unittest.TestCase):
    def test_lines(self):
        near = [predicted(101), predicted(96), predicted(112, "b")]
        self.assertEqual(line(FROM_FOUR, near[:2]), (
            "ok      not fitted to: 4 from 4, one recording, 1 programs, 2 predictions: median 2.5 % (5), "
            "nine of ten 4.0 % (15), worst 4.0 %, of the medians of programs 1.5 %, intervals with the truth 2", True))
        self.assertFalse(line(FROM_FOUR, near)[1], "an interval misses the truth")
        self.assertEqual(line(CHANGED, near, 5)[0].partition("worst")[2],
                         " 12.0 % (20), of the medians of programs 12.0 %, intervals with the truth 2")

    def test_nothing_that_was_measured(self):
        self.assertEqual(line(CHANGED, [], 5), (
            "FAILED  not fitted to: changed, 4 from 4, 5 recordings: nothing was measured", False))

    def test_a_table(self):
        columns = [(FROM_FOUR, [predicted(101e6, "a", 100e6), predicted(98e6, "a", 100e6)]), (FROM_FEWER, [])]
        one = Task(unseen("a"), {}, {(BEFORE, 4): [100e6, 99e6, 102e6]}, NOTHING)
        self.assertEqual(list(table([one], columns)), [
            "| Program | True, ms | 4 from 4 | 4 from 1 and 2 |", "|---|---|---|---|",
            "| a | 100.00 (99.00 to 102.00) | -0.5 (-2.0 to +1.0) | none |"])

    def test_a_table_of_both_versions(self):
        one = Task(unseen("a"), {}, {(BEFORE, 4): [2e6], (AFTER, 4): [1e6]}, NOTHING)
        self.assertEqual(list(table([one], [(FROM_FOUR, []), (CHANGED, [])])), [
            "| Program | True, ms | 4 from 4 | True, ms | changed, 4 from 4 |", "|---|---|---|---|---|",
            "| a | 2.00 (2.00 to 2.00) | none | 1.00 (1.00 to 1.00) | none |"])
        self.assertEqual(cell([]), "none")


class Folder(unittest.TestCase):
    def setUp(self):
        made = tempfile.TemporaryDirectory()
        self.addCleanup(made.cleanup)
        self.folder = pathlib.Path(made.name)
        self.measure(self.folder)

    def measure(self, folder):
        """One program in one turn."""
        (folder / "turns.csv").write_text("program,version,threads,turn,nanoseconds,gave_way\n"
                                          "words,before,4,1,1600,0\nwords,after,4,1,1600,0\n"
                                          "words,before,2,1,2650,0\nwords,before,1,1,3650,0\n")
        (folder / "watched.csv").write_text("turn,stolen,others,load\n1,0.0,0.01,0.5\n")
        (folder / "words.4.1.tasks").write_text(TEXT)
        write_machine(NOTHING, str(folder / "machine.json"))
        (folder / "model").write_text(str(folder / "machine.json"))
        (folder / "words.4.1.timed").write_text("times 4 0 0\n0 0 0 0\n")

    def judge(self, folder):
        out = io.StringIO()
        with mock.patch.object(judge_unseen, "UNSEEN", (WORDS,)), contextlib.redirect_stdout(out):
            self.assertEqual(judge(folder), 1)
        self.assertIn("ok      not fitted to: 4 from 4, one recording, 1 programs, 1 predictions: median 0.0 %",
                      out.getvalue())
        self.assertIn("FAILED  not fitted to: 4 from 1 and 2, one recording: nothing was measured", out.getvalue())
        return out.getvalue()

    def test_one_program(self):
        self.assertEqual(read_measured(self.folder).watched, {1: QUIET._replace(load=0.5)})
        self.assertIn("the machine was quiet: 1 of 1 turns", self.judge(self.folder))

    def test_what_is_kept_of_it(self):
        with tempfile.TemporaryDirectory() as name, mock.patch.object(kept_unseen, "HERE", pathlib.Path(name)):
            kept_unseen.main([str(self.folder), "kept"])
            self.assertNotIn("machine", self.judge(pathlib.Path(name, "kept")))


class Programs(unittest.TestCase):
    def test_none_of_those_that_the_model_was_fitted_to(self):
        names = [one.name for one, _ in programs()]
        self.assertEqual(len(names), len(set(names)))
        self.assertFalse({*names} & {one.name for one in MADE})

    def test_sources(self):
        for one, path in programs():
            self.assertEqual("REWRITTEN" in path.read_text(encoding="utf-8"), bool(one.changes), one.name)

    def test_places(self):
        """Each line that a change names is one of a task or a wait."""
        for one, path in programs():
            lines = path.read_text(encoding="utf-8").splitlines()
            for _, word in one.changes:
                for number in re.findall(re.escape(path.name) + r":(\d+)", word):
                    self.assertRegex(lines[int(number) - 1], "#pragma omp task", (one.name, word))


if __name__ == "__main__":
    unittest.main()
