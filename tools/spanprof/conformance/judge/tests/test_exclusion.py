"""Tasks that exclude one another."""
import pathlib
import tempfile
import unittest
from unittest import mock

from spanprof.command import Fault
from spanprof.conformance.judge import exclusion
from spanprof.conformance.judge.exclusion import (PARENT_ENDED, Overlap, ProvedSearch, claims_of, first_overlap,
                                                  found_search, overlapping, rule_of)
from spanprof.conformance.judge.segments import Table
from spanprof.conformance.tests.helpers import body_of

PAIR = "task depend(inoutset: a) { #: mutexinoutset\n taskwait } task depend(inoutset: a) { #: mutexinoutset\n }"
# Segments: 0 the root, 1 and 2 the first task, 3 the root, 4 the second task, 5 the root.
AT_ONCE = ("start 1 1", "finish 1 1", "start 2 4")


def reported(text, *events, search=first_overlap):
    return overlapping(Table(body_of(text)), events, search)


class Exclusion(unittest.TestCase):
    def test_one_after_the_other(self):
        self.assertIsNone(reported(PAIR, "start 1 1", "finish 1 1", "start 1 2", "finish 1 2", "start 2 4",
                                   "finish 2 4"))
        self.assertIsNone(reported(PAIR, "start 2 4", "finish 2 4", "start 1 1", "finish 1 1", "start 1 2",
                                   "finish 1 2"))

    def test_at_the_same_time(self):
        words = reported(PAIR, *AT_ONCE)
        self.assertTrue(words.startswith("event 2: thread 2 begins segment 4"), words)
        self.assertTrue(words.endswith("is complete: both have `mutexinoutset` items on a"), words)
        self.assertEqual(rule_of(words), "overlapping")

    def test_after_the_end_of_their_parent(self):
        words = reported(PAIR, "start 1 1", "finish 1 1", "finish 0 5", "start 2 4")
        self.assertTrue(words.endswith("on a, and the code of their parent has ended"), words)
        self.assertEqual(rule_of(words), "overlapping" + PARENT_ENDED)

    def test_other_locations_other_kinds_and_other_parents(self):
        self.assertIsNone(reported(PAIR.replace("inoutset: a", "inoutset: b", 1), *AT_ONCE))
        self.assertIsNone(reported(PAIR.replace("#: mutexinoutset", "", 1), *AT_ONCE))
        task = "task depend(inoutset: a) { #: mutexinoutset\n }"
        self.assertIsNone(reported(f"task {{ {task} }} task {{ {task} }}", "start 1 2", "start 2 6"))

    def test_the_first_claims_that_stand_against_each_other(self):
        names = "a", "b", "b", "a", "a, b"
        text = " ".join(f"task depend(inoutset: {name}) {{ #: mutexinoutset\n }}" for name in names)
        claims = claims_of(Table(body_of(text)))
        self.assertEqual(first_overlap(claims, ["start 0 3", "start 1 1", "start 2 9"]), Overlap(2, 4, 0))
        self.assertEqual(first_overlap(claims, ["start 0 5", "start 2 9"]), Overlap(1, 5, 2))


class Proved(unittest.TestCase):
    def setUp(self):
        folder = tempfile.TemporaryDirectory()
        self.addCleanup(folder.cleanup)
        self.folder = pathlib.Path(folder.name)

    def program(self, answer, status):
        """One that keeps what it reads, and answers so."""
        made = self.folder / "spanprof_exclusion"
        made.write_text(f"#!/bin/sh\ncat > {self.folder}/read\necho '{answer}'\nexit {status}\n")
        made.chmod(0o755)
        return str(made)

    def test_what_it_reads_and_answers(self):
        words = reported(PAIR, *AT_ONCE, search=ProvedSearch([self.program("overlap 2 1 0", 1)]))
        self.assertEqual(words, reported(PAIR, *AT_ONCE))
        self.assertEqual((self.folder / "read").read_text(),
                         "exclusive 0 0 1 2\nexclusive 0 0 4 4\n" + "\n".join([*AT_ONCE, ""]))
        self.assertIsNone(reported(PAIR, *AT_ONCE, search=ProvedSearch([self.program("apart", 0)])))

    def test_no_verdict(self):
        for answer, status in (("error: line 1: BadForm", 1), ("error: out of memory", 3), ("apart", 3), ("", 0)):
            with self.assertRaises(Fault):
                reported(PAIR, *AT_ONCE, search=ProvedSearch([self.program(answer, status)]))

    def test_without_exclusion_it_is_not_asked(self):
        self.assertIsNone(reported("task { }", "start 1 1", search=ProvedSearch(["/nowhere"])))

    def test_where_it_is(self):
        with mock.patch.object(exclusion, "words_for", lambda *_: []):
            self.assertIs(found_search(), first_overlap)
        with mock.patch.object(exclusion, "words_for", lambda *_: ["some"]):
            self.assertEqual(found_search().words, ["some"])


if __name__ == "__main__":
    unittest.main()
