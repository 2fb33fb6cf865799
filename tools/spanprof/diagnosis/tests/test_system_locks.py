import unittest
from dataclasses import replace

from spanprof.diagnosis.calls import Sampled, lock_of_switches, system_locking, system_time
from spanprof.diagnosis.facts import Held
from spanprof.diagnosis.losses import handling
from spanprof.diagnosis.tests.worked import MS, facts, place

NAME = "task at a.c:1"
MUTEX = Held("a.c:5", "mutex", 20000, 10 * MS, 300 * MS)


def run(locks=(MUTEX,), switches=30000, system=40, called=("pthread_mutex_lock@libc.so.6", "libc.so.6@libc.so.6")):
    """Half of the samples are in the program, a quarter each in these functions."""
    ran = {("main", "sum"): 80000, **{("main", one): 40000 for one in called}}
    usage = {"user_ns": 60 * MS, "system_ns": system * MS, "voluntary_switches": switches}
    return facts([place(NAME, cost=200 * MS)], locks=list(locks), usage=usage, calls=Sampled({NAME: ran}, {}))


class SystemLocks(unittest.TestCase):
    def test_the_lock_that_threads_wait_for_longest(self):
        other = Held("a.c:9", "rwlock", 10, 0, 400 * MS)
        self.assertEqual(lock_of_switches(run([MUTEX, other])), other)
        self.assertIsNone(lock_of_switches(run([replace(MUTEX, kind="critical")])))
        self.assertIsNone(lock_of_switches(run(switches=50000)))

    def test_functions_without_a_symbol_count_as_far_as_the_kernel_explains_them(self):
        self.assertEqual(system_locking(run()), {NAME: 100 * MS})
        self.assertEqual(system_locking(run(system=10)), {NAME: 62500000})
        self.assertEqual(system_locking(run(called=("memcpy@libc.so.6", "libc.so.6@libc.so.6"))), {NAME: 0})

    def test_it_is_of_the_lock_and_not_of_the_kernel(self):
        self.assertEqual(handling(run()), {("lock", "a.c:5"): 100 * MS})
        self.assertEqual(handling(run([replace(MUTEX, times=100)], switches=150)), {})     # most are free when taken
        self.assertEqual((system_time(run(system=100)), system_time(run([], system=100))), (0, 100 * MS))


if __name__ == "__main__":
    unittest.main()
