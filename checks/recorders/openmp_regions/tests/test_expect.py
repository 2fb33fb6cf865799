import unittest

from expect import body_of, regions, shape, works
from program import (All, Barrier, For, Master, Region, Repeat, Sections, Single, Task, Taskloop, Taskwait, Work)
from structure import costs, nodes


class Bodies(unittest.TestCase):
    def test_costs_stand_between_the_nodes(self):
        body = body_of([Work(1), Work(2), Task([]), Work(4)], False)
        self.assertEqual(costs(body), [3000, 4000])

    def test_only_what_is_inside_a_final_task_is_undeferred(self):
        outer, = body_of([Task([Task([Task([])])], final=True)], False)
        inner, = outer.body
        self.assertFalse(outer.undeferred)
        self.assertTrue(inner.undeferred and inner.body[0].undeferred)

    def test_what_is_inside_an_undeferred_task_is_not(self):
        outer, = body_of([Task([Task([])], undeferred=True)], False)
        self.assertTrue(outer.undeferred)
        self.assertFalse(outer.body[0].undeferred)

    def test_a_wait_with_items_is_an_empty_undeferred_task(self):
        wait, = body_of([Taskwait([("in", 1)])], False)
        self.assertEqual((wait.kind, wait.undeferred, wait.depend, wait.body), ("task", True, [("in", 1)], []))

    def test_a_taskloop_is_a_group_of_tasks(self):
        group, = body_of([Taskloop([Work(1)], 3)], False)
        self.assertEqual([group.kind] + [node.kind for node in group.body], ["taskgroup"] + ["task"] * 3)
        self.assertEqual(len(body_of([Taskloop([], 2, nogroup=True)], False)), 2)

    def test_a_loop_repeats(self):
        self.assertEqual(len(nodes(body_of([Repeat([Task([]), Taskwait()], 5)], False))), 10)


class Works(unittest.TestCase):
    def test_every_thread_and_every_turn_works(self):
        region = Region([All([Work(1), Task([Work(1)])]), Single([Taskloop([Work(1)], 3)]), For([Work(1)], 5)])
        self.assertEqual(works([Work(1), region], 4), 1 + 4 * 2 + 3 + 5)

    def test_an_empty_block_works_once(self):
        self.assertEqual(works([Region([Single([Task([])]), Sections([[], [Work(1)]])])], 4), 3)
        self.assertEqual(works([Region([])], 4), 4)

    def test_a_region_inside_has_threads_of_its_own(self):
        self.assertEqual(works([Region([All([Task([Region([All([Work(1)])], 3)])])])], 2), 6)


class Regions(unittest.TestCase):
    def test_phases_end_at_barriers(self):
        region = Region([All([]), Single([]), Master([]), Single([], nowait=True), Barrier(), For([], 4)])
        phases = shape(region, 3).phases
        self.assertEqual([[piece.who for piece in phase] for phase in phases],
                         [["all", "one"], ["first", "one"], ["turns"], []])
        self.assertEqual(phases[0][0].times, 3)

    def test_on_one_thread_every_task_is_undeferred(self):
        region = Region([Single([Task([])])])
        self.assertTrue(shape(region, 1).phases[0][0].body[0].undeferred)
        self.assertFalse(shape(region, 2).phases[0][0].body[0].undeferred)

    def test_how_often_a_region_inside_is_executed(self):
        inside = Region([], 2)
        statements = [Region([All([Repeat([inside], 3)]), For([Region([], 1)], 5), Sections([[], [Region([])]])])]
        found = [(region.threads, times, outer) for region, times, outer in regions(statements, 4)]
        self.assertEqual(found, [(None, 1, True), (2, 12, False), (1, 5, False), (None, 1, False)])


if __name__ == "__main__":
    unittest.main()
