import os
import tempfile
import unittest

from spanprof.record.run import Host, facts_of_host, host_now, sockets, stolen_and_busy


class Stolen(unittest.TestCase):
    def test_of_a_line(self):
        self.assertEqual(stolen_and_busy("cpu  1 2 3 4 5 6 7 80 9 10\n"), (80, 19))
        self.assertEqual(stolen_and_busy("cpu  1 2 3 4\n"), (None, None))
        self.assertEqual(stolen_and_busy(""), (None, None))

    def test_of_no_file(self):
        self.assertIsNone(host_now("/nowhere/stat").stolen)

    def test_grows(self):
        first, last = host_now(), host_now()
        self.assertGreaterEqual(last.stolen, first.stolen)
        self.assertGreaterEqual(last.busy, first.busy)


class Between(unittest.TestCase):
    def test_suspended_and_stolen(self):
        found = facts_of_host(Host(5, 100, 20), Host(3 * 10 ** 9 + 5, 700, 50))
        self.assertEqual((found["suspended_ns"], found["stolen_ns"], found["busy_ns"]), (3 * 10 ** 9, 600, 30))

    def test_clocks_that_are_read_one_after_the_other(self):
        self.assertEqual(facts_of_host(Host(500, None), Host(900, 7))["suspended_ns"], 0)
        self.assertIsNone(facts_of_host(Host(500, None), Host(900, 7))["stolen_ns"])


class Sockets(unittest.TestCase):
    def test_counted(self):
        with tempfile.TemporaryDirectory() as top:
            for number, package in enumerate("0011"):
                os.makedirs("%s/cpu%d/topology" % (top, number))
                with open("%s/cpu%d/topology/physical_package_id" % (top, number), "w", encoding="ascii") as file:
                    file.write(package + "\n")
            self.assertEqual(sockets([0, 1], top), 1)
            self.assertEqual(sockets([1, 2], top), 2)
            self.assertIsNone(sockets([7], top))
