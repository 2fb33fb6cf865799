import unittest

from spanprof.predict.gnu import LOCK, MOST, GnuSimulation
from spanprof.predict.policy import Spent
from spanprof.predict.program import read_program


class Order(GnuSimulation):
    """Keeps which tasks were begun, and by which thread."""

    def __init__(self, text, threads):
        program = read_program("omptasks 1 " + text)
        super().__init__(program, program.costs, threads, Spent())
        self.began = []

    def take(self, thread):
        spent = super().take(thread)
        if spent is not None:
            self.began.append((thread, self.stacks[thread][-1][0]))
        return spent


class Queues(unittest.TestCase):
    def test_an_idle_thread_takes_the_oldest(self):
        run = Order("task { } task { } task { }", 1)
        run.run()
        self.assertEqual(run.began, [(0, 1), (0, 2), (0, 3)])

    def test_one_that_waits_takes_its_newest_child(self):
        run = Order("task { } task { } task { } taskwait", 1)
        run.run()
        self.assertEqual(run.began, [(0, 3), (0, 2), (0, 1)])

    def test_and_no_other_task(self):
        """The second thread waits in the first task for its child, and leaves the others to the first one."""
        text = "task { task { work 50000 } work 10 taskwait } work 100 task { work 9000 } work 90000"
        run = Order(text, 2)
        run.run()
        self.assertEqual([number for _, number in run.began], [1, 2, 3])
        self.assertEqual(run.began[2][0], 1)    # after its wait
        self.assertGreaterEqual(run.last, 50000 + 9000)

    def test_the_end_of_a_group_takes_the_groups(self):
        run = Order("task { } taskgroup { task { } task { } }", 1)
        run.run()
        self.assertEqual(run.began, [(0, 3), (0, 2), (0, 1)])

    def test_who_sleeps_in_a_group_sees_none_that_others_make_in_it(self):
        """The first thread sleeps when the group's only task is the second one's, which makes two: these it runs."""
        text = "taskgroup { task { work 10 task { work 50 } task { work 50 } work 10 } work 5 } work 1"
        run = Order(text, 2)
        self.assertEqual(run.run().end, 10 + 10 + 50 + 50 + 1)
        self.assertEqual(run.began, [(1, 1), (1, 2), (1, 3)])

    def test_who_sleeps_is_woken_by_what_a_task_was_waited_for(self):
        text = "task depend(out: a) { work 90 } work 9 task depend(in: a) { work 50 } task depend(in: a) { work 50 } " \
            "taskwait"
        self.assertEqual(Order(text, 2).run().end, 90 + 50)

    def test_depend(self):
        run = Order("task depend(out: a) { work 5 } task depend(in: a) { } task { } taskwait", 1)
        run.run()
        self.assertEqual([number for _, number in run.began], [3, 1, 2])


class Costs(unittest.TestCase):
    def test_the_lock_is_taken_by_one_thread_at_a_time(self):
        program = read_program("omptasks 1" + " task { }" * 4)
        self.assertEqual(GnuSimulation(program, program.costs, 4, Spent(lock=LOCK)).run().end, 4 * LOCK)

    def test_too_many_tasks_are_run_at_once(self):
        """On one thread, each beyond 65 that lie ready is run where it is made, and costs no lock."""
        program = read_program("omptasks 1" + " task { work 1000 }" * 100)
        run = GnuSimulation(program, program.costs, 1, Spent(lock=LOCK)).run()
        self.assertEqual((run.dispatches, run.end), (MOST + 1, 100 * 1000 + (MOST + 1) * LOCK))

    def test_a_taskloop_of_too_many_is_run_at_once(self):
        """Of 2 threads by one, unless it has 128 tasks or fewer; other groups as their tasks are made."""
        for tasks, group, end in ((128, "a.c:1", 64), (129, "a.c:1", 129), (130, "a.c:0", 65)):
            text = "omptasks 1\ntaskgroup {  # %s\n%s}\n" % (group, "task {  # a.c:1\nwork 1000\n}\n" * tasks)
            program = read_program(text)
            self.assertEqual(GnuSimulation(program, program.costs, 2, Spent()).run().end, end * 1000)

    def test_one_that_waits_by_depend_is_not_run_before(self):
        text = "omptasks 1" + " task { work 9 }" * 65 + " task depend(out: a) { work 7 } task depend(in: a) { work 7 }"
        program = read_program(text)
        self.assertEqual(GnuSimulation(program, program.costs, 1, Spent()).run().dispatches, MOST + 1)


if __name__ == "__main__":
    unittest.main()
