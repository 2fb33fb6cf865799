import unittest

from spanprof.predict.policy import QUEUE, Simulation, Spent
from spanprof.predict.program import read_program


def ends(text, threads, spent=Spent(), seed=0):
    program = read_program("omptasks 1 " + text)
    return Simulation(program, program.costs, threads, spent, seed).run()


class Ends(unittest.TestCase):
    def test_the_worked_program(self):
        text = "work 5 task { work 3 } work 2 taskwait work 1"
        self.assertEqual([ends(text, threads).end for threads in (1, 2, 3)], [11, 9, 9])

    def test_one_thread_takes_all_the_work(self):
        found = ends("task { work 4 task { work 2 } } task depend(out: a) { work 1 } task depend(in: a) { work 6 }", 1)
        self.assertEqual((found.end, found.steals, found.dispatches), (13, 0, 4))

    def test_dependences(self):
        self.assertEqual(ends("task depend(out: a) { work 4 } task depend(in: a) { work 5 }", 8).end, 9)

    def test_undeferred(self):
        self.assertEqual(ends("task if(0) { work 4 } work 5", 8).end, 9)

    def test_an_undeferred_task_waits_for_a_dependence(self):
        text = "task depend(out: a) { work 4 } task if(0) depend(in: a) { work 5 } work 1"
        self.assertEqual([ends(text, threads).end for threads in (1, 2)], [10, 10])

    def test_groups_wait_for_all_below(self):
        self.assertEqual(ends("taskgroup { task { task { work 7 } } } work 1", 4).end, 8)
        self.assertEqual(ends("task { task { work 7 } } taskwait work 1", 4).end, 7)


class Policy(unittest.TestCase):
    def test_what_came_last_is_run_first(self):
        """Where one thread runs 1, 2, and 9 in this order, the long one begins last."""
        self.assertEqual(ends("task { work 9 } task { work 2 } task { work 1 } taskwait work 1", 1).end, 13)
        program = read_program("omptasks 1 task { work 9 } task { work 2 } task { work 1 }")
        run = Simulation(program, program.costs, 1)
        order, begun = [], run.work
        run.does[0] = lambda thread, frame, of: (order.append(program.costs[of]), begun(thread, frame, of))[1]
        run.run()
        self.assertEqual([cost for cost in order if cost], [1, 2, 9])

    def test_the_oldest_is_stolen(self):
        """The maker is busy for 10: the other thread takes 3, 4, then 5, and then nothing is left for the maker."""
        found = ends("task { work 3 } task { work 4 } task { work 5 } work 10 taskwait work 1", 2)
        self.assertEqual((found.end, found.steals), (13, 3))

    def test_a_tied_task_stays(self):
        """The second thread waits in its task for one that the first runs, and may not take what is beside it."""
        text = "task { task { work 1 } work 20 taskwait work 1 } work 5 task { work 50 } work 5 taskwait"
        self.assertEqual(ends(text, 2).end, 60)

    def test_a_full_queue(self):
        many = "task { work 1 } " * (QUEUE + 10)
        self.assertEqual(ends(many, 1).end, QUEUE + 10)
        made = ends(many, 1)
        self.assertEqual(made.dispatches, QUEUE)    # ten were run where they were made

    def test_what_steals_and_wakes_take(self):
        text = "task { work 30 } work 40"
        self.assertEqual(ends(text, 2, Spent()).end, 40)
        text = "task { work 30 } work 20 taskwait work 1"
        self.assertEqual(ends(text, 2).end, 31)
        self.assertEqual(ends(text, 2, Spent(steal=4)).end, 35)
        self.assertEqual(ends(text, 2, Spent(steal=4, wake=3)).end, 41)     # until it is seen, twice

    def test_one_seed_one_run(self):
        text = "task { work 3 task { work 2 } } " * 50
        self.assertEqual(ends(text, 4, Spent(1), 7), ends(text, 4, Spent(1), 7))

    def test_no_end_is_before_work_over_threads(self):
        text = "task { work 3 task { work 2 } taskwait work 1 } " * 50
        for threads in (1, 2, 3, 8):
            self.assertGreaterEqual(threads * ends(text, threads).end, 300)


if __name__ == "__main__":
    unittest.main()
