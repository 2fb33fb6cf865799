"""Hardware counters by files in place of the kernel's, and the mechanism by page faults, which each kernel counts."""
import os
import struct
import subprocess
import sys
import tempfile
import unittest

from spanprof.record.run import Counters, attributes, counter_words, perf_event_open, scaled

PAGE_FAULTS = (1, 2)


class Kernel:
    """Opens files that have these counts with the times enabled and running; less than 0 where there is none."""

    def __init__(self, counts):
        self.counts, self.asked = list(counts), []

    def __call__(self, asked):
        self.asked.append(asked)
        count = self.counts.pop(0)
        if count is None:
            return -1
        with tempfile.TemporaryFile() as file:
            file.write(struct.pack("=QQQ", *count))
            file.flush()
            file.seek(0)
            return os.dup(file.fileno())


class Opened(unittest.TestCase):
    def test_what_the_kernel_counted(self):
        with Counters(start=Kernel([(400, 9, 9), (800, 9, 9), (2, 9, 9)])) as counters:
            self.assertEqual(counters.read(), {"cycles": 400, "instructions": 800, "cache_misses": 2})
        with self.assertRaises(OSError):
            counters.read()

    def test_a_machine_without_them(self):
        with Counters(start=Kernel([None, None, None])) as counters:
            self.assertEqual(counters.read(), {})

    def test_one_that_is_not_there_and_one_that_never_ran(self):
        with Counters(start=Kernel([(400, 9, 9), None, (0, 9, 0)])) as counters:
            self.assertEqual(counters.read(), {"cycles": 400})

    def test_what_is_asked_for(self):
        asked = attributes(0, 3)
        self.assertEqual(len(asked), 64)
        self.assertEqual(struct.unpack_from("=IIQ", asked), (0, 64, 3))
        self.assertEqual(struct.unpack_from("=QQ", asked, 32), (3, 0x1063))

    def test_a_counter_that_had_a_third_of_the_time(self):
        self.assertEqual(scaled(struct.pack("=QQQ", 100, 30, 10)), 300)

    def test_children_of_what_is_started(self):
        """Its own faults are a hundred or more, and each child touches a thousand pages."""
        child = "import subprocess, sys; subprocess.run([sys.executable, '-c', 'bytearray(1 << 22)'])"
        with Counters({"faults": PAGE_FAULTS}, perf_event_open) as counters:
            if not counters.files:
                self.skipTest("the kernel lets nobody count")
            bytearray(1 << 22)
            self.assertEqual(counters.read(), {})
            subprocess.run([sys.executable, "-c", child], check=True)
            self.assertGreater(counters.read()["faults"], 1100)


class Told(unittest.TestCase):
    def test_a_line(self):
        self.assertEqual(counter_words({"cycles": 400, "instructions": 1000, "cache_misses": 3}), [
            "2.50 instructions per cycle, 3.0 cache misses per 1,000 instructions (measured)"])
        self.assertEqual(counter_words({"cycles": 400, "instructions": 1000}),
                         ["2.50 instructions per cycle (measured)"])

    def test_nothing(self):
        self.assertEqual(counter_words({}), [])
        self.assertEqual(counter_words({"cache_misses": 3}), [])
