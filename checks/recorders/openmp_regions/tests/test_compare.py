import copy
import unittest

from compare import difference
from expect import shape
from program import All, Barrier, For, Master, Region, Single, Task, Taskgroup, Taskloop, Taskwait, Work
from recorded import read
from structure import nodes
from tests.made import text
from write_c import write_c


def region_of(*statements):
    region = Region(list(statements))
    write_c([region])  # gives each statement its line
    return region


class OneThreadMakesTasks(unittest.TestCase):
    def setUp(self):
        self.region = region_of(Single([
            Work(3), Task([Task([], [("in", 2)])], [("out", 0), ("in", 1)]), Task([], [("in", 0), ("inout", 2)]),
            Taskwait(), Taskgroup([Task([Work(1)], undeferred=True)]), Taskwait([("inout", 1)])]))
        self.shape = shape(self.region, 2)
        self.body = self.shape.phases[0][0].body

    def reported(self, body):
        return difference(self.shape, read(text(self.shape, [[body]])))

    def damaged(self, damage):
        body = copy.deepcopy(self.body)
        damage(body)
        return self.reported(body)

    def test_right(self):
        self.assertEqual(self.reported(self.body), "")

    def test_more_cost_than_the_program_asks_for_is_right(self):
        self.assertEqual(self.damaged(lambda body: body.insert(0, 50)), "")

    def test_other_names_are_right(self):
        def rename(body):
            for node in nodes(body) + nodes(nodes(body)[0].body):
                node.depend = [(kind, place + 7) for kind, place in node.depend]
        self.assertEqual(self.damaged(rename), "")

    def test_out_is_reported_as_inout(self):
        def as_reported(body):
            nodes(body)[0].depend[0] = ("inout", 0)
        self.assertEqual(self.damaged(as_reported), "")

    def test_lost_cost(self):
        self.assertIn("0 ns before step 0", self.damaged(lambda body: body.pop(0)))

    def test_lost_cost_that_is_remarked(self):
        self.body.pop(0)
        head = '# remark: {"remark": "told elsewhere", "times": 1}\n'
        self.assertEqual(difference(self.shape, read(head + text(self.shape, [[self.body]]))), "")

    def test_missing_task(self):
        self.assertNotEqual(self.damaged(lambda body: body.pop(2)), "")

    def test_missing_wait_at_the_end(self):
        self.assertIn("not made of parts", self.damaged(lambda body: body.pop()))

    def test_missing_wait_inside(self):
        def drop(body):
            nodes(body)[0].body.pop()
        self.assertIn("is missing", self.damaged(drop))

    def test_task_on_the_wrong_level(self):
        def lift(body):
            nodes(body)[0].body, inner = [], nodes(body)[0].body
            body[2:2] = inner
        self.assertNotEqual(self.damaged(lift), "")

    def test_deferred_where_it_is_not(self):
        def defer(body):
            nodes(nodes(body)[3].body)[0].undeferred = False
        self.assertIn("where task if(0)", self.damaged(defer))

    def test_another_type(self):
        def change(body):
            nodes(body)[1].depend[0] = ("inout", 0)
        self.assertIn("has the items", self.damaged(change))

    def test_two_locations_as_one_name(self):
        def merge(body):
            nodes(body)[1].depend[1] = ("inout", 0)
        self.assertIn("names", self.damaged(merge))

    def test_another_line(self):
        def move(body):
            nodes(body)[2].line += 1
        self.assertIn("not made of parts", self.damaged(move))


class SeveralThreadsMakeTasks(unittest.TestCase):
    def setUp(self):
        self.region = region_of(
            All([Task([])]), Single([Task([Work(1)])], nowait=True), Master([Taskgroup([])]), Barrier(),
            For([Task([])], 3))
        self.shape = shape(self.region, 2)
        self.every, self.single, self.master = [piece.body for piece in self.shape.phases[0]]
        self.turn = self.shape.phases[1][0].body

    def reported(self, *phases):
        return difference(self.shape, read(text(self.shape, phases)))

    def test_any_thread_may_take_a_single_and_turns(self):
        self.assertEqual(self.reported([self.every + self.single, self.every], [self.turn * 3]), "")
        self.assertEqual(self.reported([self.every, self.every + self.single], [self.turn, self.turn * 2]), "")

    def test_code_without_tasks_may_be_left_out_with_its_thread(self):
        self.assertEqual(self.reported([self.every + self.single, self.every + self.master], [self.turn * 3]), "")

    def test_a_thread_is_missing(self):
        self.assertIn("recorded 1 times and executed 2 times",
                      self.reported([self.every + self.single], [self.turn * 3]))

    def test_a_single_is_executed_once(self):
        twice = [self.every + self.single, self.every + self.single]
        self.assertIn("not made of parts", self.reported(twice, [self.turn * 3]))

    def test_a_turn_is_missing(self):
        self.assertIn("executed 3 times", self.reported([self.every + self.single, self.every], [self.turn * 2]))

    def test_a_barrier_is_missing(self):
        one_phase = [self.every + self.single + self.turn * 3, self.every]
        self.assertIn("1 phases", self.reported(one_phase))

    def test_the_order_of_a_thread(self):
        self.assertIn("not made of parts", self.reported([self.single + self.every, self.every], [self.turn * 3]))


class Hidden(unittest.TestCase):
    def test_a_taskloop_without_group_may_have_no_line(self):
        region = region_of(Single([Taskloop([], 2, nogroup=True)]))
        wanted = shape(region, 2)
        body = copy.deepcopy(wanted.phases[0][0].body)
        for node in body:
            node.line = 0
        self.assertEqual(difference(wanted, read(text(wanted, [[body]]))), "")
        for node in body:
            node.line = region.line + 1
        self.assertNotEqual(difference(wanted, read(text(wanted, [[body]]))), "")


if __name__ == "__main__":
    unittest.main()
