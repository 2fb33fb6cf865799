import unittest
from array import array
from unittest import mock

from spanprof.diagnosis.facts import is_disturbed, set_disturbed, starved_alone
from spanprof.diagnosis.losses import losses
from spanprof.diagnosis.tests.worked import MS, facts, place


def run(starved, preempted):
    return facts([place("a", cost=300 * MS), place("b")], starved=starved * MS, preempted=preempted * MS)


class Undisturbed(unittest.TestCase):
    def test_it_counts_from_what_keeps_others_waiting(self):
        self.assertEqual([is_disturbed(run(0, preempted)) for preempted in (0, 4, 40)], [False, False, True])

    def test_what_threads_starve_more_is_due_to_other_programs(self):
        found = run(100, 100)
        set_disturbed(found, {"b": 30 * MS, "a": 10 * MS})
        self.assertEqual((found.starved_by, found.starved_off), ({"b": 30 * MS, "a": 70 * MS}, {"a": 60 * MS}))
        lost = {(loss.kind, loss.place): loss.time for loss in losses(found)}
        self.assertEqual(lost, {("too_few_tasks", "b"): 30 * MS, ("too_few_tasks", "a"): 10 * MS,
                                ("machine", "a"): 60 * MS, ("machine", ""): 100 * MS})

    def test_no_more_than_these_had_processors_for(self):
        found = run(100, 10)
        set_disturbed(found, {"b": 30 * MS, "a": 10 * MS})
        self.assertEqual((found.starved_by, found.starved_off), ({"b": 52500000, "a": 47500000}, {"a": 30 * MS}))

    def test_where_none_starve_alone(self):
        found = run(100, 100)
        set_disturbed(found, {})
        self.assertEqual((found.starved_by, found.starved_off), ({"a": 100 * MS}, {"a": 100 * MS}))

    def test_by_the_greedy_schedule(self):
        def places(path, numbers, wanted, times):
            self.assertEqual((path, list(numbers)), ("t", [0, 1, 1]))
            self.assertEqual("".join(times), "times 2 0 9\n0 0 0 9\n1 1 0 5\n2 1 5 6\n")
            return [0, 0], [3, 0]

        schedule = [array("q", [0, 0, 5]), array("q", [9, 5, 6])]
        with mock.patch("spanprof.client.columns", lambda *_: schedule), mock.patch("spanprof.client.places", places):
            self.assertEqual(starved_alone("t", ["a", "b", "b"], 2), {"a": 3})


if __name__ == "__main__":
    unittest.main()
