"""Cases of a campaign, their conditions, and their running side by side."""
import unittest
from dataclasses import replace
from unittest import mock

from spanprof.conformance.run import self_checking
from spanprof.conformance.run.campaign import (Running, cases_of, directed_cases, random_cases, run_cases, spread,
                                               telling_first, tried)
from spanprof.conformance.judge.cases import Plan, Tally
from spanprof.conformance.judge.verdicts import Verdict
from spanprof.conformance.generate.program import C_KINDS
from spanprof.conformance.tests.helpers import PLAN, StubBench, body_of, case_of, failure_of

ALL = ["tied", "untied", "mixed"]


class HangingBench(StubBench):
    """Every program hangs with busy threads."""

    def tally(self, case, at):
        failure = failure_of(case, at.threads, "hung", f"of {case.name}")
        return Tally(at, 1, 0, [replace(failure, verdict=Verdict("hung", "busy"))])


class Cases(unittest.TestCase):
    def test_one_for_each_variant_that_differs(self):
        two = body_of("task { } task { }")
        self.assertEqual([case.variant for case in cases_of("x", two, ALL, 1)], ALL)
        self.assertEqual([case.variant for case in cases_of("x", body_of("task { }"), ALL, 1)], ["tied", "untied"])
        self.assertEqual([case.variant for case in cases_of("x", body_of("taskwait"), ALL, 1)], ["tied"])

    def test_directed_programs_by_their_names(self):
        names = {case.name for case in directed_cases(set(C_KINDS), ["tied"], "taskwait_depend_*")[0]}
        self.assertEqual(names, {f"taskwait_depend_{which}" for which in ("between", "in", "out", "several")})

    def test_directed_programs_that_need_an_unknown_kind(self):
        cases, skipped = directed_cases({"in", "out", "inout"}, ["tied"])
        self.assertIn("depend_two_sets", skipped)
        self.assertNotIn("depend_two_sets", [case.name for case in cases])
        self.assertEqual(directed_cases(set(C_KINDS), ["tied"])[1], [])

    def test_random_programs_are_named_for_their_seeds(self):
        cases = list(random_cases(range(5, 8), set(C_KINDS), ["tied"]))
        self.assertEqual([case.name.split("-")[1] for case in cases], ["5", "6", "7"])
        self.assertEqual(cases, list(random_cases(range(5, 8), set(C_KINDS), ["tied"])))


class Conditions(unittest.TestCase):
    def test_each_number_of_threads_once(self):
        plan = Plan((1, 2, 4, 16), 8, 3, 10, ("free", "pinned"))
        found = plan.conditions(case_of())
        self.assertEqual([at.threads for at in found], [1, 2, 4, 16])
        self.assertEqual({at.setting for at in found}, {"free", "pinned"})
        self.assertEqual(found, plan.conditions(case_of()))

    def test_programs_differ_in_which_setting_comes_first(self):
        plan = Plan((1, 2), 8, 3, 10, ("free", "pinned"))
        self.assertEqual({plan.conditions(case_of(name))[0].setting for name in "abcdefgh"}, {"free", "pinned"})

    def test_each_number_of_threads_has_seeds_of_its_own(self):
        found = replace(PLAN, threads=(1, 2, 4), seeds=3).conditions(case_of())
        self.assertEqual([at.threads for at in found], [1, 2, 2, 2, 4, 4, 4])
        self.assertEqual(len({at.perturb for at in found}), len(found))
        others = replace(PLAN, threads=(1, 2, 4), seeds=3).conditions(case_of("another"))
        self.assertFalse({at.perturb for at in found} & {at.perturb for at in others})

    def test_given_delays(self):
        self.assertEqual({at.perturb for at in replace(PLAN, perturb="12:1+").conditions(case_of())}, {"12:1+"})


class SideBySide(unittest.TestCase):
    def test_nothing_is_begun_after_the_time(self):
        bench = StubBench()
        self.assertEqual(list(tried(bench, [case_of("a"), case_of("b")], PLAN, 1, seconds=-1)), [])
        self.assertEqual(bench.tried, [])

    def test_what_tells_most_comes_first_where_time_is_short(self):
        cases = [case_of("m", variant="mixed"), case_of("t"), *self_checking.cases("in_final")]
        self.assertEqual([case.variant for case in telling_first(cases)], ["self-checking", "tied", "mixed"])

    def test_the_first_conditions_alone_where_time_is_over_meanwhile(self):
        at = Running(StubBench(), PLAN, 1, -1, lambda: None)
        self.assertEqual(list(at.in_time(PLAN.conditions(case_of("a")))), PLAN.conditions(case_of("a"))[:1])

    def test_all_cases_are_counted(self):
        cases = [case_of(name) for name in "abc"]
        results = run_cases(StubBench(), cases, PLAN, 2)
        self.assertEqual((results.rows["all", 2]["programs"], results.rows["all", 4]["runs"]), (3, 9))
        self.assertEqual(results.groups, {})

    def test_failures_are_counted(self):
        bench = StubBench(lambda body: body == body_of("taskwait"))
        results = run_cases(bench, [case_of("a"), case_of("b", "taskwait")], PLAN, 1)
        self.assertEqual(results.failed_programs(), ["b"])

    def test_one_hang_is_tried_again_though_the_time_is_over(self):
        bench, cases = HangingBench(), [case_of(name) for name in "ab"]
        with mock.patch.object(Running, "is_over", lambda _: len(bench.tried) >= len(cases)):
            results = run_cases(bench, cases, replace(PLAN, threads=(2,)), 2)
        self.assertEqual((len(results.failed_programs()), len(bench.tried)), (1, 3))

    def test_an_error_ends_it(self):
        def breaks(body):
            raise OSError("no room")
        with self.assertRaises(OSError):
            run_cases(StubBench(breaks), [case_of("a"), case_of("b")], PLAN, 1)

    def test_neighbours_are_spread_and_all_are_there(self):
        cases = list(range(600))
        order = spread(cases)
        self.assertEqual(sorted(order), cases)
        self.assertEqual(order, spread(cases))
        self.assertLess(sum(abs(one - other) == 1 for one, other in zip(order, order[1:])), 20)


if __name__ == "__main__":
    unittest.main()
