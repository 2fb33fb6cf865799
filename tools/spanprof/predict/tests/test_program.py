import unittest

from spanprof.predict.program import BEGIN, CREATE, END, WAIT, WORK, read_program


class Reading(unittest.TestCase):
    def test_steps_and_costs(self):
        program = read_program("omptasks 1\nwork 5\ntask {  # a.c:1\nwork 3\n}\nwork 2\ntaskwait\nwork 1\n")
        self.assertEqual(program.costs, [5, 3, 2, 1])
        self.assertEqual(program.tasks[0].steps, [(WORK, 0), (CREATE, 1), (WORK, 2), (WAIT, 0), (WORK, 3)])
        self.assertEqual(program.tasks[1].steps, [(WORK, 1)])
        self.assertEqual((program.places[1], program.owners), ("task at a.c:1", [0, 1, 0, 0]))
        self.assertEqual(program.first_segment(1), 1)

    def test_groups_hold_all_below_them(self):
        program = read_program("omptasks 1 task { } taskgroup { task { taskgroup { task { } } } } task { }")
        self.assertEqual([task.groups for task in program.tasks], [(), (), (0,), (0, 1), ()])
        self.assertEqual(program.groups, 2)
        self.assertEqual([kind for kind, _ in program.tasks[2].steps], [WORK, BEGIN, CREATE, WORK, END, WORK])

    def test_undeferred(self):
        program = read_program("omptasks 1 task if(0) { } task { }")
        self.assertEqual([task.is_undeferred for task in program.tasks], [False, True, False])


class Dependences(unittest.TestCase):
    def waits(self, *items):
        """Of siblings with these items, for how many each waits, and who waits for it."""
        program = read_program("omptasks 1 " + " ".join("task depend(%s) { }" % one for one in items))
        return [(task.awaits, task.followers) for task in program.tasks[1:]]

    def test_readers_after_a_writer(self):
        self.assertEqual(self.waits("out: a", "in: a", "in: a", "inout: a"),
                         [(0, [2, 3]), (1, [4]), (1, [4]), (2, [])])

    def test_sets(self):
        self.assertEqual(self.waits("inoutset: a", "inoutset: a", "in: a", "inoutset: a"),
                         [(0, [3]), (0, [3]), (2, [4]), (1, [])])

    def test_other_names(self):
        self.assertEqual(self.waits("out: a", "out: b", "in: a, b", "out: c"), [(0, [3]), (0, [3]), (2, []), (0, [])])

    def test_one_name_twice(self):
        self.assertEqual(self.waits("in: a", "in: a) depend(out: a", "in: a"), [(0, [2]), (1, [3]), (1, [])])

    def test_siblings_alone(self):
        program = read_program("omptasks 1 task depend(out: a) { task depend(out: a) { } } task depend(in: a) { }")
        self.assertEqual([task.awaits for task in program.tasks], [0, 0, 0, 1])


if __name__ == "__main__":
    unittest.main()
