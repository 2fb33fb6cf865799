"""Counts of the rules that put no segment behind another, by hand on small logs."""
import unittest

from spanprof.conformance.judge.coverage import other_rules
from spanprof.conformance.judge.rules import LANGUAGE, PROMISE, QUALITY, RULES, at_stake, rule_of
from spanprof.conformance.judge.segments import Table
from spanprof.conformance.run.launch import Log
from spanprof.conformance.tests.helpers import body_of


def counts(text, events):
    lines = [f"{'start' if word[0] == 's' else 'finish'} {word[1]} {word[2:]}" for word in events.split()]
    found = other_rules(Table(body_of(text)), Log(0, "plain", lines, "done"))
    return {(rule, measure): count for (rule, _, measure), count in found.items()}


class Counting(unittest.TestCase):
    def test_tied_tasks(self):
        found = counts("task { } taskwait", "s00 f00 s02 f02 s11 f11 s03 f03")
        self.assertEqual((found["once", "waits"], found["once", "held"]), (1, 1))
        self.assertEqual((found["tied", "waits"], found["tied", "held"]), (2, 1))

    def test_a_task_that_begins_in_a_wait(self):
        alone = counts("task { } taskwait", "s00 f00 s02 f02 s01 f01 s03 f03")
        self.assertEqual(alone["constraint", "waits"], 1)
        self.assertNotIn(("constraint", "held"), alone)
        # Segments: root 0, outer 1, its child 2, outer 3 and 4, root 5, other 6, root 7.
        text = "task { task { } taskwait } task { }"
        found = counts(text, "s00 f00 s11 f11 s05 f05 s13 f13 s12 f12 s14 f14 s07 f07 s16 f16")
        self.assertEqual((found["constraint", "waits"], found["constraint", "held"]), (1, 1))

    def test_sums_and_exclusive_tasks(self):
        text = "taskgroup { #: reduction\n task depend(inoutset: x) { #: mutexinoutset\n }" \
               " task depend(inoutset: x) { #: mutexinoutset\n } }"
        found = counts(text, "s00 f00 s11 f11 s02 f02 s03 f03 s04 f04 s05 f05")
        self.assertEqual((found["reduction", "waits"], found["reduction", "held"]), (1, 1))
        self.assertEqual((found["exclusion", "waits"], found["exclusion", "held"], found["exclusion", "close"]),
                         (1, 1, 0))

    def test_iterations(self):
        found = counts("taskgroup { #: taskloop num_tasks(1)\n for i 1 2 { task { } } }",
                       "s00 f00 s02 f02 s04 f04 s11 f11 s13 f13 s05 f05")
        self.assertEqual((found["iterations", "held"], found["chunks", "waits"]), (2, 1))


class Rules(unittest.TestCase):
    def test_of_failures(self):
        self.assertEqual(rule_of("refused", "creation, of a task with mutexinoutset or one below it"), "creation")
        self.assertEqual(rule_of("values", "the sum of a group"), "reduction")
        self.assertEqual(rule_of("unconstrained", "undeferred task of an untied one"), "constraint")
        self.assertEqual(rule_of("crashed", "signal 11"), "end")
        self.assertIn("12.10", str(RULES[rule_of("moved", "moved")]))

    def test_at_stake(self):
        self.assertEqual(at_stake("refused", "taskwait"), PROMISE)
        self.assertEqual(at_stake("hung", "at begin of the child of detach that no thread waits for"), QUALITY)
        self.assertEqual(at_stake("not built", "error"), LANGUAGE)


if __name__ == "__main__":
    unittest.main()
