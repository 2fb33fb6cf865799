import os
import resource
import tempfile
import unittest

from spanprof.record.run import (Ended, facts_of_run, processors_of_quota, processors_there_are, quotas, threads_asked,
                                 usage_of)

USED = resource.struct_rusage((1.5, 0.25, 8, 0, 0, 0, 410, 3, 0, 0, 0, 0, 0, 0, 12, 7))
ENDED = Ended(0, 5000, USED, {"suspended_ns": 0}, {"cycles": 7})


class Usage(unittest.TestCase):
    def test_fields(self):
        self.assertEqual(usage_of(USED), {
            "user_ns": 1500000000, "system_ns": 250000000, "minor_faults": 410, "peak_bytes": 8192,
            "voluntary_switches": 12, "involuntary_switches": 7})


class Processors(unittest.TestCase):
    def test_a_quota(self):
        self.assertEqual(processors_of_quota("250000 100000\n"), 3)
        self.assertIsNone(processors_of_quota("max 100000\n"))
        self.assertIsNone(processors_of_quota(""))

    def test_quotas_of_the_groups_above_count_too(self):
        with tempfile.TemporaryDirectory() as top:
            os.makedirs(top + "/mine/inner")
            for name, words in (("mine/cpu.max", "200000 100000\n"), ("mine/inner/cpu.max", "max 100000\n")):
                with open(os.path.join(top, name), "w", encoding="ascii") as file:
                    file.write(words)
            self.assertEqual(list(quotas("/mine/inner", top)), [None, 2])
            self.assertEqual(list(quotas("/", top)), [])

    def test_here(self):
        self.assertGreaterEqual(processors_there_are(), 1)


class Threads(unittest.TestCase):
    def test_asked(self):
        for words, number in (("4", 4), (" 8,2", 8), ("", None), ("0", None), ("many", None)):
            self.assertEqual(threads_asked({"OMP_NUM_THREADS": words}), number)
        self.assertIsNone(threads_asked({}))


class Facts(unittest.TestCase):
    def test_of_a_run(self):
        found = facts_of_run(ENDED, usage_of(USED), {"OMP_NUM_THREADS": "8"}, 4)
        self.assertEqual((found["threads"], found["processors"], found["elapsed_ns"], found["host"]),
                         ({"asked": 8}, 4, 5000, {"suspended_ns": 0, "command_ns": 1750000000}))
        self.assertEqual((found["counters"], found["usage"]), ({"cycles": 7}, usage_of(USED)))
        self.assertIsNone(facts_of_run(ENDED._replace(counters={}), usage_of(USED), {}, 4)["counters"])

    def test_of_one_process_among_others(self):
        found = facts_of_run(ENDED, {"user_ns": 1000000000, "system_ns": 0, "children_ns": 7}, {}, 4)
        self.assertEqual((found["usage"], found["children_ns"], found["counters"]),
                         ({"user_ns": 1000000000, "system_ns": 0}, 7, None))
