import unittest

from spanprof.diagnosis.diagnose import diagnose
from spanprof.diagnosis.facts import Held
from spanprof.diagnosis.names import Names
from spanprof.diagnosis.output import (Output, compared, comparison_json, comparison_lines, is_slower, matched_by,
                                       spread_of)
from spanprof.diagnosis.tests.worked import MS, facts, place


def reported(line, starved, **more):
    """A run with tasks of a function at two lines."""
    one, two = place("task at a.c:%d" % line), place("task at a.c:%d" % (line + 5), cost=20 * MS)
    run = facts([two, one], starved=starved, starved_by={one.name: starved},
                functions={"a.c:%d" % line: "tone", "a.c:%d" % (line + 5): "tone"}, **more)
    return Output(diagnose(run), Names(run, None))


class Compared(unittest.TestCase):
    def test_faster_and_where_by_order_and_not_by_line(self):
        found = compared(reported(9, 240 * MS), reported(19, 40 * MS, elapsed=50 * MS))
        self.assertEqual(comparison_lines(found), [
            "image: 2.00 times as fast: 100 ms -> 50.0 ms (-50 %); runs differ by 5 %",
            "where  a.c:19 (tone): 70.0 ms -> 20.0 ms of the run",
            "now    lost 20 %: too few tasks: threads wait while a.c:19 (tone) runs"])
        self.assertEqual(matched_by(found.before.found.facts)["task", "tone", 2], "task at a.c:14")

    def test_slower(self):
        self.assertIn("2.00 times slower: 100 ms -> 200 ms (+100 %)",
                      comparison_lines(compared(reported(9, 0), reported(9, 0, elapsed=200 * MS)))[0])

    def test_no_difference_within_the_spread_of_the_runs(self):
        before, after = reported(9, 0, true_many=[90 * MS, 100 * MS, 120 * MS]), reported(9, 0,
                                                                                          true_many=[110 * MS] * 2)
        found = compared(before, after)
        self.assertEqual(comparison_lines(found)[0], "image: no difference: 100 ms -> 110 ms; runs differ by 20 %")
        self.assertFalse(found.is_other)

    def test_one_run_may_differ(self):
        self.assertEqual(spread_of(facts()), 0.05)
        self.assertAlmostEqual(spread_of(facts(true_many=[90, 100, 130])), 0.3)

    def test_what_was_predicted(self):
        before = reported(9, 0)
        run = facts([place("task at a.c:9")], at_locks=200 * MS, locks=[Held("a.c:7", "critical", 9, 1, 200 * MS)])
        before = Output(diagnose(run), Names(run, None))
        found = comparison_lines(compared(before, reported(9, 0, elapsed=60 * MS)))
        self.assertIn("predicted  50.0 ms for: do less in critical at a.c:7: a copy for each thread", found)

    def test_a_place_that_only_one_has(self):
        run = facts([place("task at a.c:9"), place("task at b.c:3")])
        after = facts([place("task at a.c:9")])
        found = compared(Output(diagnose(run), Names(run, None)), Output(diagnose(after), Names(after, None)))
        self.assertEqual([(one.before, one.after) for one in found.places if not one.after], [("task at b.c:3", None)])
        self.assertIn("b.c:3, gone: 10.0 ms -> 0 ns of the run", "\n".join(comparison_lines(found)))

    def test_slower_than_it_may_be(self):
        found = compared(reported(9, 0), reported(9, 0, elapsed=107 * MS))
        self.assertEqual([is_slower(found, most) for most in (5, 10, None)], [True, False, False])
        self.assertFalse(is_slower(compared(reported(9, 0), reported(9, 0, elapsed=104 * MS)), 3))     # as runs differ

    def test_json(self):
        reported_of_it = comparison_json(compared(reported(9, 240 * MS), reported(19, 40 * MS, elapsed=50 * MS)))
        self.assertEqual((reported_of_it["change"], reported_of_it["differs"]), (-0.5, True))
        self.assertEqual(reported_of_it["places"][0], {"before": "task at a.c:9", "after": "task at a.c:19",
                                                       "was_ms": 70.0, "now_ms": 20.0})


if __name__ == "__main__":
    unittest.main()
