import unittest

from spanprof.diagnosis.calls import Sampled, system_time
from spanprof.diagnosis.tests.worked import MS, facts, place


class InTheKernel(unittest.TestCase):
    def test_time_in_the_kernel_is_that_of_code_and_not_of_idle_threads(self):
        def system(**usage):
            return system_time(facts([place("task at a.c:1")], starved=100 * MS, usage=usage))
        self.assertEqual(system(user_ns=60 * MS, system_ns=350 * MS), 240 * MS)     # of 300 ms of code
        self.assertEqual(system(user_ns=310 * MS, system_ns=120 * MS), 0)
        self.assertEqual(system(user_ns=290 * MS, system_ns=110 * MS, minor_faults=10000), 40 * MS)
        for first, lost in ((10000, 0), (2500, 30 * MS), (0, 40 * MS)):     # pages that are used for the first time
            self.assertEqual(system(user_ns=290 * MS, system_ns=110 * MS, minor_faults=10000,
                                    peak_bytes=first * 4096), lost)

    def test_samples_see_what_calls_take_that_idle_threads_hide(self):
        usage, name = {"user_ns": 90 * MS, "system_ns": 140 * MS}, "task at a.c:1"
        for called, time in (("pread64", 150), ("libc_write", 150), ("memcpy", 110), ("opened", 110)):
            ran = {("main", called + "@libc.so.6"): 75000, ("main", "sum"): 25000}
            run = facts([place(name, cost=200 * MS)], starved=200 * MS, usage=usage, calls=Sampled({name: ran}, {}))
            self.assertEqual(system_time(run), time * MS)


if __name__ == "__main__":
    unittest.main()
