"""Results, their sums, and their way through JSON."""
import collections
import json
import unittest

from spanprof.conformance.judge.cases import Tally
from spanprof.conformance.report.results import Results, as_json, from_json
from spanprof.conformance.tests.helpers import case_of, conditions, failure_of


def results_of(*cases, failing=(), threads=(2, 4)):
    results = Results()
    results.seconds = 3.5
    for case in cases:
        tallies = []
        for number in threads:
            failures = [failure_of(case, number)] if case.name in failing else []
            tallies.append(Tally(conditions(number), 4, 40, failures, collections.Counter(plain=3, late=1),
                                 collections.Counter({("taskwait", "taskwait", "close"): 2}), judged=3))
        results.add(case, tallies)
    return results


LARGE, SMALL = case_of("large", "task { work 1 } task { } taskwait"), case_of("small", "task { } taskwait")


class Counting(unittest.TestCase):
    def test_rows(self):
        results = results_of(LARGE, SMALL, failing=("small",))
        self.assertEqual(results.rows["all", 2], {"programs": 2, "runs": 8, "events": 80, "refused": 1})
        self.assertEqual(results.rows["taskwait", 4]["runs"], 8)
        self.assertNotIn(("untied", 2), results.rows)

    def test_a_program_in_two_variants_is_one_program(self):
        results = results_of(case_of("x"), case_of("x", variant="untied"))
        self.assertEqual(results.rows["all", 2]["programs"], 1)
        self.assertEqual(results.rows["all", 2]["runs"], 8)

    def test_conditions_and_coverage(self):
        results = results_of(LARGE, failing=("large",))
        self.assertEqual(results.conditions["free", "late"], {"runs": 2, "failures": 2})
        self.assertEqual(results.coverage["taskwait", "taskwait", "close", 4], 2)

    def test_failures_of_one_signature(self):
        (signature, group), = results_of(LARGE, SMALL, failing=("large", "small")).most_frequent()
        self.assertEqual(signature, ("tied", "refused", "taskwait"))
        self.assertEqual((group.runs, group.programs, group.threads), (4, {"large", "small"}, {2, 4}))
        self.assertEqual(group.smallest.case, SMALL)

    def test_most_frequent_first(self):
        results = Results()
        for rule, count in (("dependence", 1), ("taskwait", 3)):
            results.add(SMALL, [Tally(conditions(), 1, 1, [failure_of(rule=rule)]) for _ in range(count)])
        self.assertEqual([rule for (_, _, rule), _ in results.most_frequent()], ["taskwait", "dependence"])


class Sums(unittest.TestCase):
    def test_sum_of_two_batches_is_the_result_of_both(self):
        apart = results_of(LARGE, failing=("large",))
        apart.merge(results_of(SMALL, failing=("small",)))
        together = results_of(LARGE, SMALL, failing=("large", "small"))
        together.seconds = 7
        self.assertEqual((together.runs, together.judged), (16, 12))
        self.assertEqual(as_json(apart), as_json(together))

    def test_merging_changes_only_the_sum(self):
        other = results_of(SMALL, failing=("small",))
        before = as_json(other)
        total = results_of(LARGE, failing=("large",))
        total.merge(other)
        total.merge(other)
        self.assertEqual(as_json(other), before)


class Store(unittest.TestCase):
    def test_there_and_back(self):
        results = results_of(LARGE, SMALL, failing=("large", "small"))
        written = json.dumps(as_json(results))
        self.assertEqual(json.dumps(as_json(from_json(json.loads(written)))), written)

    def test_failures_come_back_whole(self):
        results = results_of(case_of("untied", "task { #: untied\n } taskwait", "untied"), failing=("untied",))
        again = from_json(json.loads(json.dumps(as_json(results))))
        signature, = again.groups
        self.assertEqual(again.groups[signature].smallest, results.groups[signature].smallest)


if __name__ == "__main__":
    unittest.main()
