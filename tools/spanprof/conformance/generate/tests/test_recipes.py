"""Random programs of forms that are known to be hard."""
import random
import unittest

from spanprof.conformance.emit.forms import is_cancelled
from spanprof.conformance.generate.constructs import constructs
from spanprof.conformance.generate.program import Group, Loop, Task, Wait, Work, nodes, segment_count
from spanprof.conformance.generate.random_programs import GATED, RECIPES, LocationRecipes
from spanprof.conformance.generate.text_reader import read_program
from spanprof.conformance.generate.text_writer import text_of
from spanprof.conformance.judge.segments import Table

KINDS = ("in", "out", "inout")
SEEDS = range(40)


def made(name):
    return [RECIPES[name](LocationRecipes(random.Random(seed), KINDS)) for seed in SEEDS]


def most_turns(body):
    return max((node.turns for node in nodes(body) if isinstance(node, Loop)), default=0)


class Made(unittest.TestCase):
    def test_all_come_back_from_their_texts(self):
        for name in RECIPES:
            for body in made(name):
                self.assertEqual(read_program(text_of(body)), body, name)
                self.assertLess(segment_count(body), 5000, name)

    def test_no_sibling_is_under_way_where_a_cancelled_group_begins(self):
        for body in made("cancel"):
            for statements in [body, *(getattr(node, "body", ()) for node in nodes(body))]:
                for before, node in zip((None, *statements), statements):
                    if isinstance(node, Group) and is_cancelled(node):
                        self.assertIsInstance(before, Wait)

    def test_more_ready_tasks_than_are_queued(self):
        for body in made("many"):
            self.assertGreater(most_turns(body), 64)

    def test_more_locations_than_there_is_room_for(self):
        for body in made("table"):
            places = {place for task in Table(body).tasks for _, place in task.items}
            self.assertGreaterEqual(len(places), 12)

    def test_many_locations_below_each_of_several_tasks(self):
        below = [node for body in made("table") for node in nodes(body) if isinstance(node, Task) and
                 [loop.turns for loop in node.body if isinstance(loop, Loop)] == [GATED, GATED]]
        self.assertGreaterEqual(len(below), 2)
        for one in below:
            gate, writers, readers = [node for node in one.body if node != Wait()]
            waited = {item.place for item in writers.body[0].items if item.kind == "in"}
            self.assertEqual(waited, {item.place for item in gate.items})
            self.assertIn(readers.body[0].items[0].place, {item.place for item in writers.body[0].items})

    def test_tasks_that_end_while_others_are_created(self):
        for body in made("stream"):
            self.assertGreaterEqual(most_turns(body), 20)

    def test_sets_of_tasks_one_after_another(self):
        kinds = {*KINDS, "inoutset", "mutexinoutset"}
        bodies = [LocationRecipes(random.Random(seed), kinds).members() for seed in SEEDS]
        found = set().union(*map(constructs, bodies))
        self.assertLessEqual({"depend(in)", "depend(out)", "depend(inoutset)", "depend(mutexinoutset)"}, found)
        self.assertNotIn("depend(inoutset)", set().union(*map(constructs, made("members"))))

    def test_free_places_before_one_that_is_taken(self):
        """The first of some deferred tasks waits for the slow one, and all others have been waited for."""
        def first_waits(one):
            *before, slow = [task for task in one if task.items[0].kind == "out"]
            waited = [task.items[0].place for task in one if task.undeferred]
            later = [task for task in one if task.items[0].kind == "in" and not task.undeferred]
            return waited == [task.items[0].place for task in before] and later and \
                later[0].items[0].place == slow.items[0].place

        found = [body for body in made("probes") if any(first_waits(one.body) for one in body[0].body)]
        self.assertGreater(len(found), len(SEEDS) // 2)

    def test_few_locations_in_each_of_many_tasks(self):
        for body in made("probes"):
            self.assertEqual(most_turns(body), 33)
            self.assertLessEqual(2, len({place for task in Table(body).tasks[:5] for _, place in task.items}))

    def test_groups_of_tasks_that_all_wait(self):
        def all_wait(node):
            inner = [task for task in nodes(node.body) if isinstance(task, Task)]
            return bool(inner) and all(task.items for task in inner)

        self.assertTrue([node for body in made("fan") for node in nodes(body)
                         if isinstance(node, Group) and all_wait(node)])

    def test_waits_again_and_again(self):
        found = set().union(*(constructs(body) for body in made("rounds")))
        self.assertLessEqual({"taskwait", "taskgroup", "if(0) with depend", "taskwait with depend"}, found)
        for body in made("rounds"):
            self.assertGreaterEqual(most_turns(body), 8)

    def test_waits_with_as_little_between_them_as_there_can_be(self):
        bodies = made("hurry")
        self.assertFalse([node for body in bodies for node in nodes(body) if isinstance(node, Work)])
        self.assertTrue(all(most_turns(body) >= 20 for body in bodies))
        self.assertLessEqual({"taskwait", "taskgroup", "if(0) with depend"}, set().union(*map(constructs, bodies)))

    def test_cancelled_groups(self):
        for body in made("cancel"):
            self.assertIn("cancel", constructs(body))
            self.assertTrue(any(task.cancellers for task in Table(body).tasks))


if __name__ == "__main__":
    unittest.main()
