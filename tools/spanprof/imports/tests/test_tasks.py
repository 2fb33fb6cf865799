"""In tools/: python3 -m unittest discover -s spanprof/imports/tests -t ."""
import unittest

from spanprof.command import Fault
from spanprof.imports.tasks import MOST_BEFORE, Task, in_order, timed


def task(name, begin, end, *before):
    return Task(name, name + ".log:1", begin, end, before=list(before))


class Order(unittest.TestCase):
    def test_each_behind_those_before_it_else_by_begins(self):
        found = in_order([task("c", 9, 10, 1), task("b", 4, 9), task("a", 2, 3), Task(before=[2])])
        self.assertEqual([one.name for one in found], ["a", "", "b", "c"])
        self.assertEqual([one.before for one in found], [[], [0], [], [2]])

    def test_the_same_one_before_it_counts_once(self):
        self.assertEqual(in_order([task("a", 0, 1), task("b", 1, 2, 0, 0)])[1].before, [0])

    def test_many_before_one_are_joined_in_a_tree(self):
        for count in (MOST_BEFORE, MOST_BEFORE + 1, 1000, 40000):
            found = in_order([task("a", 0, 1) for _ in range(count)] + [task("z", 1, 2, *range(count))])
            self.assertLessEqual(max(len(one.before) for one in found), MOST_BEFORE)
            self.assertEqual(len(found) == count + 1, count == MOST_BEFORE)
            reached, waiting = set(), [len(found) - 1]
            while waiting:
                before = found[waiting.pop()].before
                reached.update(before)
                waiting += before
            self.assertEqual(reached, set(range(len(found) - 1)))
            self.assertTrue(all(first < number for number, one in enumerate(found) for first in one.before))

    def test_a_cycle_names_its_members_and_a_line(self):
        for tasks, words in (
                ([task("a", 0, 1, 1), task("b", 0, 1, 0), task("c", 0, 1, 0)], "a.log:1: .*: a for b for a$"),
                ([task("a", 0, 1, 0)], "a.log:1: .*: a for a$"),
                ([Task(before=[0])], "a task without code for a task without code"),
                ([task(str(n), 0, 1, (n + 1) % 9) for n in range(9)], "0 for 1 for 2 for .. for 0")):
            with self.assertRaisesRegex(Fault, words):
                in_order(tasks)

    def test_wrong_times(self):
        for begin, end, words in ((-1, 4, "x:7: a begins at a negative time"), (4, 3, "x:7: a ends before it begins")):
            with self.assertRaisesRegex(Fault, words):
                timed("x:7", "a", begin, end)


if __name__ == "__main__":
    unittest.main()
