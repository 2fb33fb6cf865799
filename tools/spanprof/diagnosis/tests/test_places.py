import unittest

from spanprof import segment_table
from spanprof.diagnosis.places import OF_THREADS, OWN, SERIAL, SHARE, TASK, in_text, lines_between, read_places
from spanprof.diagnosis.tests.worked import TEXT, program
from spanprof.phases import is_by_a_turn
from spanprof.tests.columns import segments_of


class Places(unittest.TestCase):
    def test_the_kind_of_each(self):
        kinds = {name: place.kind for name, place in program().places.items()}
        self.assertEqual(kinds, {
            "the beginning": SERIAL, OWN + " at image.c:20": OF_THREADS, "task at image.c:25": TASK,
            "after creating a task at image.c:25": OF_THREADS, "after taskwait at image.c:30": OF_THREADS,
            "task at image.c:33": TASK, "after creating a task at image.c:33": OF_THREADS,
            "starting one of the region's threads": SERIAL,
            "after the barrier of the region at image.c:20": SERIAL})

    def test_costs_tasks_and_items(self):
        place = program().places["task at image.c:25"]
        self.assertEqual((place.cost, place.pieces, place.largest, place.tasks, place.average), (100, 2, 60, 2, 50))
        self.assertEqual(place.items[("inout", "a0")], 2)
        self.assertEqual(place.positions[("in", "a2")], 0)
        self.assertEqual(program().places["task at image.c:33"].undeferred, 1)

    def test_tasks_that_write_the_same_as_the_one_before(self):
        text = "omptasks 1\n" + "".join(
            "task depend(%s) {  # a.c:%d\nwork 1\n}\n" % pair for pair in
            (("inout: a1", 3), ("inout: a1", 3), ("inout: a1", 3), ("inout: a2", 3), ("in: a2", 5), ("in: a2", 5)))
        found = program(text).places
        self.assertEqual([found["task at a.c:%d" % line].again for line in (3, 5)], [2, 0])

    def test_items_of_neighbours_stand_at_several_positions(self):
        text = "omptasks 1\n" + "".join("task depend(inout: %s) {  # a.c:3\nwork 1\n}\n" % items for items in (
            "a, b, x", "b, c, y", "c, d, z"))
        found = program(text).places["task at a.c:3"]
        self.assertEqual((found.moving, found.moving_at), ({("inout", "b"), ("inout", "c")}, {0, 1}))

    def test_items_that_several_tasks_have_while_each_has_one_of_its_own(self):
        def shared_at(*items):
            lines = "".join("task depend(inout: %s) {  # a.c:3\nwork 1\n}\n" % one for one in items)
            return program("omptasks 1\n" + lines).places["task at a.c:3"].shared_at
        frames = ["%s%d" % ("ab"[number // 4], number) for number in range(8)]
        self.assertEqual(shared_at(*("%s, x%s" % (name[0], name) for name in frames)), {0})
        self.assertEqual(shared_at(*("x%s, %s" % (name, name[0]) for name in frames)), {1})
        self.assertEqual(shared_at(*(name[0] for name in frames)), set())
        self.assertEqual(shared_at(*("%s, x%s" % (name[0], name[0]) for name in frames)), set())
        self.assertEqual(shared_at(*("%s, x%s" % (name[0], name) for name in frames), "z, a"), set())

    def test_threads_code_has_its_region(self):
        lines = ["omptasks 1\n"]
        for at in ("a.c:3", "a.c:9", "a.c:3"):
            lines += ["taskgroup {  # %s\n" % at, "task {  # one of the region's threads\n", "work 5\n",
                      "taskgroup {\n", "}\n", "}\n", "task {  # one of the region's threads\n", "work 4\n"]
            lines += ["}\n", "}\n"]
        own = {name: place for name, place in program("".join(lines)).places.items() if in_text(name) == OWN}
        self.assertEqual({name: (place.cost, place.longest) for name, place in own.items()},
                         {OWN + " at a.c:3": (18, 10), OWN + " at a.c:9": (9, 5)})

    def test_a_phase_that_one_thread_runs(self):
        lines = ["omptasks 1\n"]
        for costs in ((80, 1), (8, 2), (8, 2)):
            lines += ["taskgroup {  # a.c:3\n"]
            for cost in costs:
                lines += ["task {  # one of the region's threads\n", "work %d\n" % cost, "}\n"]
            lines += ["}\n"]
        own = program("".join(lines)).places[OWN + " at a.c:3"]
        self.assertEqual((own.longest, own.alone, own.has_several), (96, 80, False))

    def test_phases_as_a_converter_adds_them_up(self):
        code = segment_table.read_code(TEXT.splitlines(True), "the text")
        code.phases = [[code.of[code.own[0]], 7, 5, 3, 1, 1, 0]]
        own = read_places(code, 1000).places[OWN + " at image.c:20"]
        self.assertEqual((own.longest, own.alone, own.uneven, own.by_a_turn), (7000, 5000, 3000, 1000))

    def test_the_lines_between_two_constructs(self):
        places = program().places
        self.assertEqual(lines_between(places["the beginning"]), ("image.c", 0, 20))
        self.assertEqual(lines_between(places[OWN + " at image.c:20"]), ("image.c", 20, 25))
        self.assertEqual(lines_between(places["after taskwait at image.c:30"]), ("image.c", 30, 33))
        self.assertEqual(lines_between(places["after the barrier of the region at image.c:20"]), ("image.c", 20, 0))

    def test_turns_of_a_loop_are_a_share(self):
        found = program("omptasks 1\ntaskgroup {  # the loop at a.c:3\ntask {  # turns of the loop at a.c:3\n"
                        "work 5\n}\n}\n")
        self.assertEqual(found.places["turns of the loop at a.c:3"].kind, SHARE)

    def test_how_uneven_turns_are_phase_by_phase(self):
        part = "task {  # one of the region's threads\ntaskgroup {  # the loop at a.c:3\n%s}\n}\n"
        turns = "task {  # turns of the loop at a.c:3\nwork %d\n}\n"
        region = "taskgroup {  # a.c:2\n" + part % (turns % 5 + turns % 3) + part % (turns % 6) + part % "" + "}\n"
        found = program("omptasks 1\n" + 2 * region).places["turns of the loop at a.c:3"]
        self.assertEqual(found.uneven, 2 * (24 - 14))

    def test_a_turn_more_than_others(self):
        for costs, is_one in (([20, 10, 12, 8], True), ([10, 9], True), ([30, 20, 21, 19], False),
                              ([9, 10, 8], True), ([9, 10, 8, 9], False), ([10, 30, 50, 70], False),
                              ([20, 15, 10, 5], False)):
            self.assertEqual(is_by_a_turn(costs, 4), is_one, costs)
        lines = ["omptasks 1\n", "taskgroup {  # a.c:3\n"]
        for cost in (20, 10, 10, 10):
            lines += ["task {  # one of the region's threads\n", "work %d\n" % cost, "}\n"]
        own = program("".join([*lines, "}\n"])).places[OWN + " at a.c:3"]
        self.assertEqual((own.uneven, own.by_a_turn), (30, 30))

    def test_each_segment_has_a_name_and_a_cost(self):
        found = program()
        self.assertEqual(sum(found.costs), 132)
        self.assertEqual([in_text(name) for name in found.names], [segment.place() for segment in segments_of(TEXT)])
        self.assertEqual(len(found.names), len(found.costs))


if __name__ == "__main__":
    unittest.main()
