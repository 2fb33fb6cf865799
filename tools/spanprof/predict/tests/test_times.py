import unittest

from spanprof.predict.policy import Simulation
from spanprof.predict.program import read_program
from spanprof.predict.times import on_threads, times_of

TASKS = "omptasks 1 work 10 task { work 1 } work 10 task { work 1 } work 10"


def times(*rows, text=TASKS):
    return times_of(read_program(text), rows)


class Threads(unittest.TestCase):
    def test_a_thread_was_not_there_while_a_task_lay_ready(self):
        """Tasks are made at 110 and at 120; the second thread begins the first one at 170."""
        found = times((0, 0, 100, 110), (1, 1, 170, 190), (2, 0, 110, 120), (3, 0, 140, 150), (4, 0, 120, 130))
        self.assertEqual(found.arrivals(), (0, 70))

    def test_where_none_lay_ready_it_may_have_been_there(self):
        """The first task is begun at once, so that none lies ready from then on until 120."""
        found = times((0, 0, 100, 110), (1, 0, 110, 112), (2, 0, 112, 120), (3, 1, 190, 200), (4, 0, 120, 130))
        self.assertEqual(found.arrivals(), (0, 10))

    def test_one_that_waits_for_another_is_ready_at_its_end(self):
        text = "omptasks 1 task depend(out: a) { work 1 } task depend(in: a) { work 1 }"
        found = times((0, 0, 0, 1), (1, 1, 50, 90), (2, 0, 1, 2), (3, 1, 95, 99), (4, 0, 2, 3), text=text)
        self.assertEqual(found.ready[1:], [1, 90])
        self.assertEqual(list(found.gaps(found.begun_at())), [5])

    def test_times_of_another_text(self):
        self.assertIsNone(times((0, 0, 0, 1)))

    def test_other_numbers(self):
        self.assertEqual(on_threads((0, 100, 300), 3, 3), (0, 100, 300))
        self.assertEqual(on_threads((0, 100, 300), 5, 5), (0, 100, 300, 450, 600))   # two of them began nothing
        self.assertEqual([on_threads((0, 100, 300), 3, threads) for threads in (2, 4)], [(0, 150), (0, 150, 300, 450)])
        self.assertEqual(on_threads((), 4, 4), ())

    def test_that_one_came_late_holds_for_no_other_number(self):
        self.assertEqual(on_threads((0, 3000000), 2, 2), (0, 3000000))
        self.assertEqual(on_threads((0, 3000000), 2, 4), (0, 100000, 200000, 300000))


class Dispatches(unittest.TestCase):
    def test_a_thread_that_has_waited_tells_none(self):
        """The first task is ready at 110, and the thread is free from 130 on; the other one comes at 170."""
        found = times((0, 0, 100, 110), (1, 0, 134, 150), (2, 0, 110, 120), (3, 1, 170, 180), (4, 0, 120, 130))
        self.assertEqual(list(found.gaps(found.begun_at())), [4])
        self.assertIsNone(found.dispatch())     # too few

    def test_the_mean(self):
        text = "omptasks 1" + " task { work 1 }" * 12
        rows = [(2 * i, 0, i, i + 1) for i in range(13)]
        rows += [(2 * i + 1, 1, 100 * i + 3 + i % 2 * 6, 100 * i + 100) for i in range(12)]
        self.assertEqual(times_of(read_program(text), rows).dispatch(), (6 * 9 + 5 * 3) // 11)

    def test_another_programs_turn_is_left_out(self):
        found = times((0, 0, 100, 110), (1, 0, 90000, 90001), (2, 0, 110, 120), (3, 1, 170, 180), (4, 0, 120, 130))
        self.assertEqual(list(found.gaps(found.begun_at())), [])


class Resumptions(unittest.TestCase):
    def test_a_wait_that_is_over(self):
        """The first thread goes on 5 after its own child, and 8 after the group, of which another one had a task."""
        text = "omptasks 1 task { work 1 } work 1 taskwait work 1 taskgroup { task { work 1 task { work 1 } } } work 1"
        found = times((0, 0, 0, 10), (1, 0, 12, 20), (2, 0, 10, 11), (3, 0, 25, 30), (4, 0, 32, 40), (5, 1, 33, 39),
                      (6, 0, 40, 41), (7, 0, 30, 31), (8, 0, 49, 50), text=text)
        self.assertEqual(found.resumed_at(), {3: 20, 8: 41})
        self.assertEqual((list(found.gaps(found.resumed_at())), found.resumption()), ([5, 8], 0))

    def test_one_that_waits_for_another_thread_is_not_over(self):
        text = "omptasks 1 task { } taskwait"
        found = times((0, 0, 0, 10), (1, 1, 12, 20), (2, 0, 10, 11), (3, 0, 25, 30), text=text)
        self.assertEqual((found.resumed_at(), list(found.gaps(found.resumed_at()))), ({3: 20}, []))


class Simulated(unittest.TestCase):
    def test_a_thread_that_comes_later(self):
        program = read_program("omptasks 1" + " task { work 100 }" * 4)
        self.assertEqual([Simulation(program, program.costs, 2, arrivals=came).run().end
                          for came in ((), (0, 50), (0, 1000))], [200, 250, 400])


if __name__ == "__main__":
    unittest.main()
