"""The bench for many runtimes, on the stubs of test_cases."""
import os
import tempfile
import unittest

from spanprof.conformance.judge.cases import Bench
from spanprof.conformance.judge.tests.test_cases import EARLY, LOG, StubJudge, StubToolchain
from spanprof.conformance.judge.verdicts import Verdict
from spanprof.conformance.run.mutant_campaigns import SparingBench
from spanprof.conformance.tests.helpers import PLAN, case_of


class Sparing(unittest.TestCase):
    def setUp(self):
        folder = tempfile.TemporaryDirectory()
        self.addCleanup(folder.cleanup)
        self.folder = folder.name

    def bench(self, *logs):
        judge = StubJudge()
        judge.spanprof = "spanprof"
        made = SparingBench(Bench(StubToolchain(self.folder, logs), judge, dict(os.environ)))
        made.judge = judge
        return made

    def test_the_first_failure_alone(self):
        bench = self.bench(LOG, EARLY)
        failure = bench.first_failure(case_of(), PLAN.conditions(case_of()))
        self.assertEqual((failure.conditions.threads, failure.rule), (2, "taskwait"))
        self.assertIsNone(self.bench(LOG).first_failure(case_of(), PLAN.conditions(case_of())))

    def test_nothing_is_counted(self):
        (tally,) = self.bench(LOG).try_case(case_of(), PLAN.conditions(case_of())[:1])
        self.assertEqual((tally.runs, tally.coverage), (1, {}))

    def test_programs_are_shared_and_environments_are_not(self):
        bench = self.bench(LOG)
        other = bench.in_environment({**os.environ, "LD_PRELOAD": "mutant.so"})
        for one in (bench, other):
            one.try_case(case_of(), PLAN.conditions(case_of())[:1])
        self.assertEqual(bench.toolchain.built, 1)
        self.assertIs(bench.examined(case_of()), other.examined(case_of()))
        self.assertNotIn("LD_PRELOAD", bench.environment)

    def test_a_hang_that_may_have_been_slow_is_tried_again(self):
        bench, timeouts = self.bench(LOG), []

        def hangs_at_first(_log, conditions):
            timeouts.append(conditions.timeout)
            return Verdict("hung", "busy") if len(timeouts) == 1 else Verdict("accepted"), {}

        bench.examined(case_of()).verdict = hangs_at_first
        self.assertIsNone(bench.first_failure(case_of(), PLAN.conditions(case_of())[:1]))
        self.assertEqual(timeouts, [PLAN.timeout, 5 * PLAN.timeout])


if __name__ == "__main__":
    unittest.main()
