import unittest
from math import exp, log
from unittest.mock import Mock

from spanprof.command import Fault
from spanprof.predict import estimate as estimating
from spanprof.predict.burden import burdened, burdened_text
from spanprof.predict.estimate import estimate
from spanprof.predict.gnu import LOCK
from spanprof.predict.interval import ALONE, AS_RECORDED, ON_GCC, ON_OTHERS, width
from spanprof.predict.machine import Machine, Measured
from spanprof.predict.program import read_program
from spanprof.predict.recorded import GNU, Recorded, with_text
from spanprof.tests.columns import segments_of

TASKS = "omptasks 1\n" + "task {  # a.c:1\nwork 1000\n}\n" * 8


def machine(**costs):
    return Machine({2: {name: Measured(cost, cost, cost, 1) for name, cost in costs.items()}}, {})


def recording(threads, text=TASKS, **others):
    return Recorded(read_program(text), threads, text=text, **others)


class Burdens(unittest.TestCase):
    def test_each_deferred_task_has_one(self):
        program = read_program("omptasks 1 task { work 5 task if(0) { work 3 } } task { }")
        self.assertEqual(burdened(program, program.costs, 10), [0, 15, 3, 0, 0, 10, 0])

    def test_what_follows_a_wait(self):
        program = read_program("omptasks 1 task { work 5 } taskwait work 1 taskgroup { task { } work 2 } work 3")
        self.assertEqual(burdened(program, program.costs, 10, 7), [0, 15, 0, 8, 10, 2, 10])

    def test_the_text(self):
        text = '# recorded: {"program": "a", "unit": "us"}\n# elapsed: 9\nomptasks 1\nwork 1\n' \
            "task {  # a.c:1\nwork 3\n}\ntaskgroup {  # a.c:2\n}\nwork 1\ntaskwait\n"
        made = burdened_text(text, [7, 0, 5, 2, 0], "burdened")
        self.assertEqual(made, '# recorded: {"program": "a", "unit": "ns"}\n# remark: burdened\nomptasks 1\nwork 7\n'
                               "task {  # a.c:1\n}\nwork 5\ntaskgroup {  # a.c:2\n}\nwork 2\ntaskwait\n")
        self.assertEqual([one.cost for one in segments_of(made)], [7, 0, 5, 2, 0])


class Estimates(unittest.TestCase):
    def test_as_recorded(self):
        found = estimate({4: [recording(4, outside=100)]}, machine(dispatch=50), 4)
        self.assertEqual((found.time, found.grown, found.by_lock), (2 * 1050 + 100, 0, False))
        self.assertAlmostEqual(log(found.high / found.low), 2 * width(AS_RECORDED, 1, 0, 0), places=2)

    def test_the_median_of_several(self):
        several = [recording(4, TASKS.replace("1000", cost)) for cost in ("1000", "1700", "1010")]
        found = estimate({4: several}, machine(dispatch=50), 4)
        self.assertEqual((found.time, found.of, found.base), (2 * 1060, 3, several[2]))
        self.assertAlmostEqual(found.apart, log(1750 / 1050))
        self.assertAlmostEqual(log(found.high / found.low), 2 * width(AS_RECORDED, 3, found.apart, 0), places=2)

    def test_on_others(self):
        self.assertEqual(estimate({4: [recording(4)]}, machine(dispatch=50), 2).time, 4 * 1050)
        found = estimate({4: [recording(4)]}, machine(dispatch=50), 1)
        self.assertEqual(found.time, 8000)  # no dispatch
        self.assertAlmostEqual(log(found.high / found.low), 2 * width(ALONE, 1, 0, 0), places=3)

    def test_growth(self):
        dearer = TASKS.replace("1000", "1200")
        found = estimate({1: [recording(1, outside=10)], 2: [recording(2, dearer, outside=20)]}, machine(), 4)
        self.assertEqual(found.time, 2 * 1350 + 30)
        self.assertAlmostEqual(exp(found.grown), 1350 / 1200)
        far = width(ON_OTHERS, 1, 0, found.grown)
        self.assertEqual((found.low, found.high), (int(2730 / exp(far)), int(2730 * exp(far))))

    def test_a_recording_on_that_number_is_taken(self):
        found = estimate({1: [recording(1)], 2: [recording(2, TASKS.replace("1000", "1200"))]}, machine(), 2)
        self.assertEqual((found.time, found.grown), (4800, 0))

    def test_one_thread_tells_nothing_of_more(self):
        self.assertEqual(estimate({1: [recording(1)]}, machine(dispatch=50), 1).time, 8000)
        with self.assertRaisesRegex(Fault, "a.tasks was recorded on one thread"):
            estimate({1: [recording(1, name="a.tasks")]}, machine(), 2)

    def test_what_the_times_of_a_recording_tell(self):
        """A dispatch that it tells has its steals in it; the second of two threads comes when two tasks are over."""
        one = recording(2, dispatch=100, arrivals=(0, 2200))
        found = estimate({2: [one]}, machine(dispatch=50, steal=400), 2)
        self.assertEqual((found.dispatch, found.steal, found.time), (100, 0, 5 * 1100))
        self.assertEqual(estimate({2: [one]}, machine(dispatch=50), 1).dispatch, 0)

    def test_gccs_runtime(self):
        """Each of eight tasks waits for the lock; the times of LLVM's runtime do not count."""
        one = recording(2, dispatch=100, arrivals=(0, 2200))
        found = estimate({2: [one]}, machine(dispatch=50, steal=400), 2, GNU)
        self.assertEqual((found.runtime, found.dispatch), (GNU, 0))
        self.assertEqual(found.time, 4 * 1000 + 5 * LOCK)

    def test_on_gccs_runtime_as_recorded_the_run_tells(self):
        """By the model 8 tasks take 4 times 2000 on two threads, and half of them half of that."""
        one = recording(2, dispatch=1000, runtime=GNU, as_run=10000)
        costs = machine(dispatch=50, steal=400)
        self.assertEqual([estimate({2: [one]}, costs, threads).time for threads in (2, 1)], [10000, 8 * 2000])
        one.head, half = Mock(nanoseconds=1), "omptasks 1\n" + "task {  # a.c:1\nwork 1000\n}\n" * 4
        self.assertEqual(estimate({2: [with_text(one, half)]}, costs, 2).time, 5000)

    def test_recorded_on_gccs_runtime(self):
        """The second thread comes late. A dispatch as recorded has the wait for the lock in it."""
        one = recording(2, dispatch=1000, arrivals=(0, 2200), runtime=GNU)
        found = estimate({2: [one]}, machine(), 2)
        self.assertEqual(found.time, 5 * 2000)
        self.assertAlmostEqual(log(found.high / found.low), 2 * width(ON_GCC, 1, 0, 0), places=3)
        on_one = estimate({2: [one]}, machine(), 1)
        self.assertEqual((on_one.dispatch, on_one.time), (1000 - LOCK, 8 * 2000))
        waiting = recording(2, TASKS + "taskwait\n", dispatch=1000, resumption=500, runtime=GNU)
        self.assertEqual(estimate({2: [waiting]}, machine(), 2).time, 4 * 2000 + 500)

    def test_a_lock(self):
        found = estimate({2: [recording(2, held=3000)]}, machine(), 4)
        self.assertEqual((found.time, found.by_lock), (3000, True))

    def test_a_wake_up_is_measured_with_creation_and_steal(self):
        spent = estimating.spent_on(machine(creation=160, steal=380, wake_up=700), 4)
        self.assertEqual((spent.steal, spent.wake), (380, 160))
        self.assertEqual(estimating.spent_on(machine(creation=160, steal=380, wake_up=100), 4).wake, 0)


if __name__ == "__main__":
    unittest.main()
