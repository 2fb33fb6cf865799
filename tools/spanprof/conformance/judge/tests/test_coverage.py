"""How hard a rule was tried, counted by hand on small logs."""
import collections
import unittest

from spanprof.conformance.judge.coverage import Coverage, all_waits, never
from spanprof.conformance.judge.segments import Table
from spanprof.conformance.tests.helpers import body_of

WORKED = "task { work 3 } taskwait"                      # 0, child 1, 2, after the wait 3
CHAIN = "task depend(out: x) { } task depend(in: x) { }"  # 0, first 1, 2, second 3, 4


def counts(text, events, threads=2):
    table = Table(body_of(text))
    lines = [f"{'start' if word[0] == 's' else 'finish'} {word[1]} {word[2:]}" for word in events.split()]
    found = Coverage(table).of_run(lines, threads)
    return {(rule, measure): count for (rule, _, measure), count in found.items()}


class Counting(unittest.TestCase):
    def test_wait_that_is_held_and_close(self):
        self.assertEqual(counts(WORKED, "s00 f00 s11 s02 f02 f11 s03 f03"),
                         {("taskwait", "waits"): 1, ("taskwait", "held"): 1, ("taskwait", "close"): 1})

    def test_wait_whose_child_was_long_finished(self):
        self.assertEqual(counts(WORKED, "s00 f00 s11 f11 s02 f02 s03 f03"), {("taskwait", "waits"): 1})

    def test_wait_that_goes_on_on_the_thread_that_finished(self):
        self.assertEqual(counts(WORKED, "s00 f00 s02 f02 s01 f01 s03 f03"),
                         {("taskwait", "waits"): 1, ("taskwait", "held"): 1})

    def test_dependence_needs_somebody_free(self):
        held = {("dependence", "waits"): 1, ("dependence", "held"): 1, ("dependence", "close"): 1}
        self.assertEqual(counts(CHAIN, "s00 f00 s11 s02 f02 f11 s03 f03 s04 f04"), held)
        busy = "s00 f00 s11 s02 f02 s04 f11 s13 f13 f04"  # thread 0 goes on at once: one event lies between
        self.assertEqual(counts(CHAIN, busy), {("dependence", "waits"): 1, ("dependence", "held"): 1})
        self.assertEqual(counts(CHAIN, "s00 f00 s01 f01 s02 f02 s03 f03 s04 f04", threads=1),
                         {("dependence", "waits"): 1})

    def test_two_events_between_are_not_close(self):
        events = "s00 f00 s11 s02 f02 s04 f11 f04 s03 f03"
        self.assertEqual(counts(CHAIN, events)["dependence", "close"], 1)
        events = "s00 f00 s11 s02 f02 f11 s14 f14 s03 f03"
        self.assertNotIn(("dependence", "close"), counts(CHAIN, events))

    def test_other_rules_that_hold(self):
        """The second task of the chain is undeferred, so the parent waits for it and not for the dependence."""
        text = "task depend(out: x) { } task if(0) depend(in: x) { }"
        found = Coverage(Table(body_of(text))).of_run(
            ["start 0 0", "finish 0 0", "start 1 1", "start 0 2", "finish 0 2", "finish 1 1", "start 0 3",
             "finish 0 3", "start 0 4", "finish 0 4"], 2)
        self.assertEqual(found["dependence", "out, then in (undeferred)", "close"], 1)
        self.assertEqual(found["undeferred", "if(0)", "held"], 1)
        self.assertEqual(found["undeferred", "if(0)", "close"], 0)


class AllWaits(unittest.TestCase):
    def test_dependences_are_those_that_conflict(self):
        waits = list(all_waits({"in", "out"}))
        self.assertEqual([construct for rule, construct in waits if rule == "dependence"],
                         ["in, then out", "out, then in", "out, then out", "in, then out (undeferred)",
                          "out, then in (undeferred)", "out, then out (undeferred)"])
        self.assertEqual(len(list(all_waits({"in", "out", "inout", "inoutset"}))), 2 * 14 + 6)

    def test_what_was_never_counted(self):
        counted = collections.Counter({("taskwait", "taskwait", "held", 2): 1, ("taskwait", "taskwait", "waits", 1): 4})
        self.assertNotIn("taskwait: taskwait", never("held", counted, set()))
        self.assertEqual(never("close", counted, set()), [
            "taskwait: taskwait", "taskgroup: taskgroup", "taskgroup: taskloop", "taskgroup: parallel"])
        self.assertIn("undeferred: if(0)", never("held", counted, set()))


if __name__ == "__main__":
    unittest.main()
