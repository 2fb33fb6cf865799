"""Shrunk failures: how they are reported, and when a failure counts as seen again."""
import unittest
from unittest import mock

from spanprof.conformance.generate.program import Wait, nodes
from spanprof.conformance.judge.cases import Tally
from spanprof.conformance.judge.verdicts import Refused, Verdict
from spanprof.conformance.run.launch import Log
from spanprof.conformance.run.reproduce import MOST_EVENTS, Found, Limits, OneFile, Reproducer, is_like, reproduce_all
from spanprof.conformance.tests.helpers import StubBench, body_of, case_of, failure_of


class Bench(StubBench):
    """Knows nothing of C."""

    def examined(self, case):
        self.text = self.name_of(case)
        return self

    def name_of(self, case):
        return repr(case.body)

    def stacks_of(self, _case, _conditions):
        return ["Thread 1"]


def setUpModule():
    patch = mock.patch("spanprof.conformance.run.reproduce.one_file", lambda *_: OneFile("C", 5, 20))
    patch.start()
    unittest.addModuleCleanup(patch.stop)


class Rare(Bench):
    """Fails only in as many runs as are asked for, and then in the way that is said."""

    def __init__(self, runs, rule="taskwait"):
        super().__init__()
        self.runs, self.rule = runs, rule

    def tally(self, case, at):
        failures = [failure_of(case, rule=self.rule)] if at.runs >= self.runs else []
        return Tally(at, at.runs, 0, failures)


def waits(body):
    return any(isinstance(node, Wait) for node in nodes(body))


class Reproducing(unittest.TestCase):
    def reproduced(self, bench, tries=100):
        case = case_of("large", "task { work 3 } taskgroup { task { } taskwait } task { }")
        return Reproducer(bench, failure_of(case), Limits(5, tries, 60)).reproduce()

    def test_smallest(self):
        found = self.reproduced(Bench(waits))
        self.assertEqual(found.failure.case.body, body_of("taskwait"))
        self.assertEqual((found.origin, found.failed, found.runs), ("large", 1, 5))
        self.assertEqual(found.ways, ["refused, taskwait"])

    def test_not_seen_again(self):
        found = self.reproduced(Bench())
        self.assertEqual(found.failure.case.name, "large")
        self.assertIn("not seen again", found.remark())

    def test_rare_failures_get_more_runs(self):
        self.assertEqual(self.reproduced(Rare(90), tries=3).runs, 100)

    def test_another_way_counts_where_the_first_is_not_seen(self):
        found = self.reproduced(Rare(1, rule="dependence"))
        self.assertEqual(found.ways, ["refused, dependence"])

    def test_smaller_program_that_spanprof_refuses_does_not_fail(self):
        def refuses(body):
            if body != body_of("task { work 3 } taskgroup { task { } taskwait } task { }"):
                raise Refused("line 1")
            return True
        self.assertEqual(self.reproduced(Bench(refuses)).failure.case.name, "large")


class All(unittest.TestCase):
    def reproduced(self, seconds):
        failures = [failure_of(case_of(name, "task { work 3 } taskgroup { taskwait } task { }"), rule=name)
                    for name in ("taskwait", "dependence", "order")]
        return reproduce_all(Bench(waits), failures, Limits(5, 100, seconds), 2)

    def test_each_in_the_order_of_the_failures(self):
        found = self.reproduced(60)
        self.assertEqual([one.origin for one in found], ["taskwait", "dependence", "order"])
        self.assertEqual([one.failure.case.body for one in found], [body_of("taskwait")] * 3)

    def test_no_more_tries_once_the_seconds_are_over(self):
        self.assertEqual([one.tried for one in self.reproduced(0)], [0] * 3)


class Alike(unittest.TestCase):
    def test_hangs_at_fewer_constructs(self):
        first = failure_of(kind="hung", rule="at taskgroup, taskwait")
        self.assertTrue(is_like(failure_of(kind="hung", rule="at taskwait"), first))
        self.assertFalse(is_like(failure_of(kind="hung", rule="at if(0), taskwait"), first))

    def test_other_failures_have_one_rule(self):
        self.assertTrue(is_like(failure_of(rule="taskwait"), failure_of(rule="taskwait")))
        self.assertFalse(is_like(failure_of(rule="taskwait"), failure_of(rule="taskgroup")))


class Telling(unittest.TestCase):
    def test_a_program_that_fails_less_often(self):
        found = self.found("", [])
        found.rate, found.runs = (4, 5), 20
        self.assertIn("where 4 of 5 runs did", found.remark())
        found.rate = (1, 20)
        self.assertEqual(found.remark(), "")

    def found(self, detail, events, ways=("refused, taskwait",)):
        failure = failure_of()
        failure.verdict, failure.log = Verdict("refused", detail), Log(0, "late", events)
        return Found(failure, "x", "", "", 1, 1, 5, list(ways))

    def test_events_up_to_the_refused_one(self):
        events = ["start 0 0", "finish 0 0", "start 0 1", "finish 0 1"]
        self.assertEqual(self.found("event 2: NotReady 1", events).events(), events[:3])
        self.assertEqual(self.found("more events than the program can have", events).events(), events)

    def test_long_logs_are_cut_at_their_beginning(self):
        events = [f"start 0 {place}" for place in range(200)]
        shown = self.found("event 150: NotReady 1", events).events()
        self.assertEqual((len(shown), shown[-1]), (MOST_EVENTS, "start 0 150"))

    def test_several_ways(self):
        self.assertEqual(self.found("", [], ("hung, hung", "refused, taskwait")).remark(),
                         "It fails in 2 ways: hung, hung; refused, taskwait.")


if __name__ == "__main__":
    unittest.main()
