import unittest
from collections import Counter
from types import SimpleNamespace

from spanprof.command import Fault
from spanprof.diagnosis import changes as module
from spanprof.diagnosis.calls import Sampled
from spanprof.diagnosis.changes import Bench, candidates, single
from spanprof.diagnosis.places import SERIAL
from spanprof.diagnosis.tests.worked import TEXT, facts, place, program
from spanprof.head import read_head
from spanprof.program_text import Statement, of_stream, statements
from spanprof.whatif.requests import Request, survey

TASKS = "task at image.c:25"


def found_in(places, **more):
    return facts(places.values(), starved_by={TASKS: 5}, **more)


class Candidates(unittest.TestCase):
    def test_each_kind_has_a_reason(self):
        one = program()
        seen = survey(statements(TEXT.splitlines(True)))
        options = Counter(change.kind for change in candidates(found_in(one.places), seen))
        self.assertEqual(options, {"defer": 1, "drop-wait": 1, "split": 2, "drop-depend": 1, "task": 1})

    def test_a_name_that_many_tasks_hold_to_write(self):
        one = place(TASKS)
        one.items.update({("inout", "a0"): 8, ("in", "a1"): 8, ("inout", "a2"): 1})
        self.assertEqual(list(module.readers(facts([one]))), [single("in-for-inout", "a0")])

    def test_items_of_neighbours_that_many_tasks_hold_to_write(self):
        one = place(TASKS)
        one.items.update({("inout", "a0"): 2, ("inout", "a1"): 8, ("inout", "a2"): 8})
        one.moving.update({("inout", "a1"), ("inout", "a2")})
        self.assertEqual(list(module.readers(facts([one])))[-1], single("read-only", TASKS))

    def test_items_that_take_turns_beside_those_of_each_task(self):
        one = place(TASKS)
        one.items.update({("inout", "a0"): 4, ("inout", "a1"): 4, **{("inout", "b%d" % i): 1 for i in range(8)}})
        one.positions.update((item, int(item[1][0] == "b")) for item in one.items)
        self.assertEqual(list(module.readers(facts([one])))[-1], single("read-only", TASKS))

    def test_serial_code_of_one_function_is_divided_together(self):
        places = [place(name, SERIAL, tasks=0) for name in ("after a", "after b", "after c")]
        ran = {name: {("main", function, "sin@libm.so.6"): 90000} for name, function in
               (("after a", "quantize"), ("after b", "write"), ("after c", "quantize"))}
        run = facts(places, starved_by={"after a": 3, "after b": 2, "after c": 1}, calls=Sampled(ran, {}))
        self.assertEqual([[one.word for one in change.requests] for change in module.splits(run)],
                         [["after a=4", "after c=4"], ["after b=4"]])

    def test_all_waits_of_a_function_that_items_order_together(self):
        seen = SimpleNamespace(waits=Counter({"taskwait at a.c:3": 2, "taskwait at a.c:5": 2, "taskwait at a.c:9": 1,
                                              "the barrier of the region at a.c:1": 1}),
                               ordered=Counter({"taskwait at a.c:3": 1, "taskwait at a.c:5": 1}))
        run = facts(functions={"a.c:3": "main", "a.c:5": "main"})
        together = [change for change in module.waits(run, seen) if len(change.requests) == 2]
        self.assertEqual([one.word for one in together[0].requests], ["taskwait at a.c:3", "taskwait at a.c:5"])
        self.assertFalse([one for one in module.waits(run, seen) if "barrier" in one.place])


class Tries(unittest.TestCase):
    """Without a program: an end is reported by how many lines the changed text has."""

    def setUp(self):
        self.was = module.greedy_end, module.client.at_once
        module.greedy_end = self.measured
        module.client.at_once = lambda answer, questions: [answer(one) for one in questions]
        self.head = read_head('# recorded: {"threads": 4, "unit": "us"}\n')
        text = SimpleNamespace(head=self.head, path=TEXT,
                               statements=lambda: of_stream(statements(TEXT.splitlines(True))))
        self.bench = Bench(text, found_in(program().places), self.measured, 10)

    def tearDown(self):
        module.greedy_end, module.client.at_once = self.was

    @staticmethod
    def measured(text, _):
        return len(text.splitlines())

    def test_the_end_is_in_nanoseconds(self):
        self.assertEqual(self.bench.end([]), 1000 * len(TEXT.splitlines()))

    def test_a_change_on_top_of_others(self):
        wait = single("drop-wait", "taskwait at image.c:30")
        alone = self.bench.tries([wait])[0].end
        self.assertEqual(alone, self.bench.end([]) + 1000)      # an empty group has two lines
        split = (Request("split", TASKS + "=2"),)
        self.assertGreater(self.bench.tries([wait], split)[0].end, alone)

    def test_none_is_begun_that_may_end_too_late(self):
        wait = single("drop-wait", "taskwait at image.c:30")
        self.assertTrue(self.bench.has_time())
        self.bench.longest = 10     # as long as there is for all of them
        self.assertFalse(self.bench.has_time())
        self.assertEqual(self.bench.tries([wait]), [])

    def test_those_of_a_long_text_are_tried_one_by_one(self):
        module.client.at_once = None
        self.bench.kept = of_stream([*self.bench.kept, *[Statement("work")] * module.LARGE])
        self.assertEqual(len(self.bench.tries([single("drop-depend", TASKS)])), 1)

    def test_what_cannot_be_made_is_left_out(self):
        self.assertEqual(self.bench.tries([single("drop-wait", "no such wait")]), [])
        self.assertEqual(self.bench.tries([single("in-for-inout", "a1")]), [])

        def refused(*_):
            raise Fault("refused")
        module.greedy_end = refused
        self.assertEqual(self.bench.tries([single("drop-depend", TASKS)]), [])


if __name__ == "__main__":
    unittest.main()
