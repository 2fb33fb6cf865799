import unittest
from types import SimpleNamespace

from spanprof.diagnosis.calls import Sampled
from spanprof.diagnosis.diagnose import bound_of, bounds, queueing
from spanprof.diagnosis.losses import Loss
from spanprof.diagnosis.places import OF_THREADS
from spanprof.diagnosis.tests.worked import MS, facts, place

TASKS = "task at image.c:25"


class Bounds(unittest.TestCase):
    def test_a_bound_is_that_of_losing_nothing(self):
        step = bound_of(facts(code=200 * MS), 100 * MS, Loss("lock", "", 100 * MS))
        self.assertEqual((step.after, step.low, step.high), (75 * MS, 75 * MS, 92500000))

    def test_a_bound_leaves_the_code_unless_it_is_in_code_that_time_is_lost(self):
        run = facts(code=320 * MS, usage={"user_ns": 20 * MS, "system_ns": 300 * MS})
        after = {kind: bound_of(run, 100 * MS, Loss(kind, "", 300 * MS)).after for kind in ("sleep", "system")}
        self.assertEqual(after, {"sleep": 80 * MS, "system": 25 * MS})

    def test_threads_wait_less_for_code_that_is_no_longer_slowed(self):
        run = facts([place(TASKS, cost=200 * MS)], code=200 * MS, cost_on_one={TASKS: 100 * MS})
        lost, waits = Loss("memory", TASKS, 100 * MS), Loss("imbalance", TASKS, 80 * MS)
        others = [Loss("imbalance", "task at image.c:40", 20 * MS), Loss("startup", TASKS, 20 * MS)]
        self.assertEqual(bound_of(run, 100 * MS, lost, [lost, *others]).after, 75 * MS)
        self.assertEqual(bound_of(run, 100 * MS, lost, [lost, waits, *others]).after, 65 * MS)
        self.assertEqual(bound_of(run, 100 * MS, lost._replace(kind="lock"), [lost, waits]).after, 75 * MS)
        self.assertEqual(bound_of(run, 100 * MS, Loss("allocation", "allocation at a.c:9", 100 * MS), [waits]).after,
                         65 * MS)

    def test_at_most_all_that_contended_lines_take_is_gone(self):
        sampled = Sampled({TASKS: {("main",): 100000}}, {}, {TASKS: {"image.c:26": 50000}},
                          {TASKS: {"image.c:26": 75000, "image.c:27": 25000}})
        run = facts([place(TASKS, cost=400 * MS)], calls=sampled)
        step = bound_of(run, 100 * MS, Loss("memory", TASKS, 200 * MS))
        self.assertEqual((step.low, step.after), (25 * MS, 50 * MS))
        run.cost_on_one = {TASKS: 200 * MS}     # measured
        self.assertEqual(bound_of(run, 100 * MS, Loss("memory", TASKS, 200 * MS)).low, 50 * MS)

    def test_what_passes_between_threads_from_region_to_region_goes_with_small_ones(self):
        lost, waits = Loss("small_regions", "image.c:25", 100 * MS), Loss("loop_schedule", TASKS, 20 * MS)
        shared, others = Loss("memory", TASKS, 80 * MS), Loss("memory", "task at image.c:40", 40 * MS)
        run = facts(code=240 * MS)
        for found, after, low in (([others], 75, 75), ([others, waits], 70, 70), ([shared, others, waits], 50, 0)):
            step = bound_of(run, 100 * MS, lost, [lost, *found])
            self.assertEqual((step.after, step.low), (after * MS, low * MS))
        self.assertEqual(bound_of(run, 100 * MS, lost._replace(kind="lock"), [shared, waits]).after, 75 * MS)

    def test_neighbouring_turns_write_the_same_lines_where_chunks_are_small(self):
        name = "turns of the loop at image.c:9"
        lost, run = Loss("small_chunks", name, 120 * MS), facts([place(name, "share")], code=200 * MS)
        for at, after, low in ((name, 50, 0), ("task at image.c:40", 70, 70)):
            step = bound_of(run, 100 * MS, lost, [lost, Loss("memory", at, 80 * MS)])
            self.assertEqual((step.after, step.low), (after * MS, low * MS))

    def test_what_the_recorder_takes_is_part_of_neither_time(self):
        lost, run = Loss("small_regions", "image.c:25", 124 * MS), facts(code=200 * MS, recorder=8 * MS)
        self.assertEqual(bound_of(run, 92 * MS, lost).after, 67 * MS)   # of 400, 32 while threads wait for the recorder
        self.assertEqual(bound_of(run, 98 * MS, lost._replace(kind="lock")).after, 67 * MS)

    def test_threads_with_a_processor_each_still_meet_at_barriers(self):
        """Of 100 ms recording took 4: in the other 96 the greedy run of the text on four threads lasts 30."""
        run = facts(code=80 * MS, delayed=304 * MS, recorder=16 * MS)
        for kind in ("affinity", "too_many_threads"):
            ends = []
            for run.scheduled in (None, 10 * MS, 30 * MS, 200 * MS):
                step, = bounds(run, 100 * MS, [Loss(kind, "image.c:20", 304 * MS)])
                ends.append((step.after // MS, step.at_best))
            self.assertEqual(ends, [(20, True), (20, True), (31, False), (100, False)])
        run.scheduled = 90 * MS
        self.assertTrue(bounds(run, 100 * MS, [Loss("sleep", "image.c:20", 304 * MS)])[0].after < 90 * MS)

    def test_the_others_wait_for_the_one_that_records_that_it_makes_tasks(self):
        made = place(TASKS, pieces=8000, tasks=8000)
        maker = place("after creating a task at image.c:25", OF_THREADS, pieces=8000, tasks=0)
        lost = Loss("small_tasks", TASKS, 112 * MS)
        for places, after in (([made, maker], 95 * 280 // 380), ([made], 95 * 280 // 392)):
            step = bound_of(facts(places, code=200 * MS, recorder=8 * MS), 95 * MS, lost)
            self.assertEqual(step.after // MS, after)

    def test_recording_takes_time_between_tasks_too(self):
        """Of 30 ms that recording 150,000 tasks takes 8 are in code: 22 of the 112 that tasks lose are no loss."""
        made = place(TASKS, pieces=150000, tasks=150000)
        for kind, after in (("small_tasks", 95 * 280 // 370), ("lock", 95 * 280 // 392)):
            step = bound_of(facts([made], code=200 * MS, recorder=8 * MS), 95 * MS, Loss(kind, TASKS, 112 * MS))
            self.assertEqual(step.after // MS, after)

    def test_what_passes_between_threads_with_a_lock_goes_with_it(self):
        run = facts([place(TASKS)], code=200 * MS, calls=Sampled({}, {}, at={TASKS: {"image.c:25": 9}}))
        shared, others = Loss("memory", TASKS, 40 * MS), Loss("memory", "task at image.c:40", 40 * MS)
        for lost in (Loss("lock", "image.c:25", 160 * MS), Loss("spin", TASKS, 160 * MS)):
            for found, after, low in (([others], 60, 60), ([shared, others], 50, 0)):
                step = bound_of(run, 100 * MS, lost, [lost, *found])
                self.assertEqual((step.after, step.low), (after * MS, low * MS))


class Sleep(unittest.TestCase):
    """Tasks that sleep for nine tenths of their time."""

    def step(self, ends, *others, **more):
        run = facts([place(TASKS)], asleep=360 * MS, asleep_by={TASKS: 360 * MS}, **more)
        bench = SimpleNamespace(end=lambda _: ends[4], end_on=ends.__getitem__)
        return next(step for step in bounds(run, 100 * MS, [Loss("sleep", TASKS, 360 * MS), *others], bench))

    def test_more_threads_run_meanwhile(self):
        step = self.step({4: 90, 20: 27})
        self.assertEqual((step.after, step.threads, step.at_best), (30 * MS, 20, False))

    def test_none_more_where_threads_wait_for_processors_already(self):
        self.assertEqual(self.step({4: 90, 20: 27}, Loss("too_many_threads", TASKS, 40 * MS)).threads, 0)

    def test_they_wake_up_together(self):
        """8 tasks of 1 ms of code: the last of 20 threads waits for 16 on four processors."""
        run = facts([place(TASKS, cost=368 * MS)], asleep=360 * MS, asleep_by={TASKS: 360 * MS})
        self.assertEqual([queueing(run, TASKS, threads) for threads in (20, 4, 0)], [4 * MS, 0, 0])
        self.assertEqual(queueing(run, "", 20), 0)

    def test_they_need_processors_for_the_code(self):
        self.assertEqual(self.step({4: 90, 20: 0}).after, 10 * MS)

    def test_without_much_to_run_meanwhile_they_do_not_help(self):
        step = self.step({4: 90, 20: 60})
        self.assertEqual((step.after, step.threads), (10 * MS, 0))
        step = self.step({4: 90, 20: 27}, calls=Sampled({}, {TASKS: {("main", "system@libc.so.6"): 9}}))
        self.assertEqual((step.after, step.threads), (10 * MS, 0))


if __name__ == "__main__":
    unittest.main()
