"""Campaigns on runtimes that were built from changed sources."""
import pathlib
import types
import unittest

from spanprof.conformance.run.mutant_campaigns import Built, Campaigns
from spanprof.conformance.tests.helpers import PLAN, StubBench, case_of, failure_of

LOST = Built("lost", "loses a task", "once", "yes", pathlib.Path("lost.so"))
LATE = Built("late", "wakes late", "taskwait", "no: slower", pathlib.Path("late.so"))


CASES = [case_of(name) for name in "abcd"]
OPTIONS = types.SimpleNamespace(jobs=1, seconds=60)


class MutantBench(StubBench):
    """Programs fail on the library `lost.so` where `fails` holds for them."""

    def __init__(self, fails):
        super().__init__(fails)
        self.environment = {}

    def in_environment(self, environment):
        other = MutantBench(self.fails if "lost" in environment["LD_PRELOAD"] else lambda case: False)
        other.tried = self.tried
        return other

    def first_failure(self, case, _conditions):
        self.tried.append(case)
        return failure_of(case) if self.fails(case) else None


class OnMutants(unittest.TestCase):
    def campaigns(self, fails, kept=()):
        bench, keeps = MutantBench(fails), []
        campaigns = Campaigns(bench, CASES, OPTIONS, PLAN, kept, lambda *one: keeps.append(one))
        return {mutant.name: campaign for mutant, campaign in campaigns.run([LOST, LATE])}, bench, keeps

    def test_all_programs_where_none_fails(self):
        seen, bench, keeps = self.campaigns(lambda case: False)
        self.assertEqual([(one.tried, one.program) for one in seen.values()], [(4, ""), (4, "")])
        self.assertEqual(len({case.name for case in bench.tried}), 4)
        self.assertEqual(sorted(name for name, _ in keeps), ["late", "lost"])

    def test_it_ends_with_the_first_program_that_fails(self):
        seen, _, _ = self.campaigns(lambda case: case.name > "a")
        self.assertEqual((seen["lost"].tried, seen["lost"].program, seen["lost"].how), (2, "b", "taskwait"))
        self.assertEqual(seen["late"].program, "")

    def test_goes_on_from_what_was_kept(self):
        kept = [("lost", {"program": "p", "how": "taskwait", "tried": 3, "seconds": 1.5})]
        seen, bench, keeps = self.campaigns(lambda case: True, kept)
        self.assertEqual((seen["lost"].program, len(bench.tried)), ("p", 4))
        self.assertEqual([name for name, _ in keeps], ["late"])


if __name__ == "__main__":
    unittest.main()
