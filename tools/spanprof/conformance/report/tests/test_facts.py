"""What a report says of the test itself."""
import types
import unittest

from spanprof.conformance.judge.cases import Tally
from spanprof.conformance.report.results import Results
from spanprof.conformance.report.texts import facts_of, reported_runtimes, tested
from spanprof.conformance.tests.helpers import case_of, conditions


class StubToolchain:
    kinds = {"in", "out", "inout"}
    shown_flags = ["-O1", "-fopenmp"]

    def version(self):
        return "cc 1.0"

    def runtime(self, environment):
        return environment["RUNTIME"]


def facts(settings=("free", "pinned"), **others):
    options = types.SimpleNamespace(threads=(2, 4), runs=3, seed=7, tasks=["tied"], programs=9, match="*",
                                    perturb=0)
    options.__dict__.update(others)
    bench = types.SimpleNamespace(toolchain=StubToolchain(), environment={"RUNTIME": "/lib/libgomp.so"})
    return tested(options, bench, settings)


class Facts(unittest.TestCase):
    def test_what_is_tested(self):
        found = facts(settings=("free", "priorities"), match="tree_*")
        self.assertEqual(found, {
            "compiler": "cc 1.0, flags `-O1 -fopenmp`", "runtime": "/lib/libgomp.so", "threads": "2, 4",
            "runs each": "3", "seed": "7", "setting free": "as the runtime is by itself",
            "setting priorities": "priorities count: `OMP_MAX_TASK_PRIORITY=9 MALLOC_PERTURB_=170`", "tasks": "tied",
            "directed programs": "tree_*", "random programs": "9"})

    def test_delays_in_the_runtime(self):
        self.assertEqual(facts(perturb=8)["seeds of delays in the runtime"], "8")

    def test_what_is_left_out(self):
        self.assertIn("depend_two_sets", facts()["left out, as the compiler lacks a kind of item"])

    def test_variables_of_the_caller(self):
        self.assertEqual(reported_runtimes({"PATH": "/bin", "OMP_DYNAMIC": "true", "KMP_USE_YIELD": "2"}),
                         "`KMP_USE_YIELD=2 OMP_DYNAMIC=true`")
        self.assertEqual(reported_runtimes({"PATH": "/bin"}), "")

    def test_machine_and_time_come_after_the_test(self):
        results = Results()
        results.seconds = 61.4
        self.assertEqual([name for name, _ in facts_of({"seed": "1"}, results)],
                         ["seed", "judged by spanprof", "machine", "time"])
        self.assertEqual(facts_of({}, results)[-1], ("time", "61 s"))

    def test_how_many_logs_spanprof_judged(self):
        results = Results()
        results.add(case_of(), [Tally(conditions(), 4, 40, judged=3), Tally(conditions(4), 4, 40, judged=2)])
        self.assertTrue(facts_of({}, results)[0][1].startswith("5 logs of 8 runs; "))


if __name__ == "__main__":
    unittest.main()
