import os
import subprocess
import sys
import time
import unittest

from timing import TICKS, Times, busy_processes, busy_seconds, part_of_others

TOP = os.path.dirname(os.path.dirname(os.path.abspath(__file__)))


class Timing(unittest.TestCase):
    def test_gain_is_of_medians(self):
        times = Times([4.0, 8.0, 4.0], [1.0, 1.0, 9.0], True, 0.0)
        self.assertEqual(times.gain, 75)

    def test_busy_seconds_leave_idle_ones_out(self):
        self.assertEqual(busy_seconds("cpu  100 0 50 9000 800 0 0 50 0 0\ncpu0 1\n"), 200 / TICKS)

    def test_the_part_of_others(self):
        self.assertAlmostEqual(part_of_others(3.0, 1.0, 1.0, 4), 0.5)
        self.assertEqual(part_of_others(1.0, 1.1, 1.0, 4), 0)

    def test_a_quiet_machine(self):
        self.assertTrue(Times([1.0], [1.0], True, 0.05).is_quiet)
        self.assertFalse(Times([1.0], [1.0], True, 0.5).is_quiet)

    def test_busy_processes_end(self):
        with busy_processes(2) as begun:
            self.assertEqual([one.poll() for one in begun], [None, None])
        self.assertTrue(all(one.returncode for one in begun))

    def test_they_end_with_the_process_that_began_them(self):
        code = "import timing, os; print(timing.busy_processes(1).__enter__()[0].pid, flush=True); os._exit(1)"
        words = [sys.executable, "-B", "-c", code]
        done = subprocess.run(words, cwd=TOP, stdout=subprocess.PIPE, text=True, check=False)
        for _ in range(200):
            if not os.path.exists("/proc/%s/fd/1" % done.stdout.strip()):
                return
            time.sleep(0.05)
        self.fail("process %s is left" % done.stdout)


if __name__ == "__main__":
    unittest.main()
