import json
import os
import tempfile
import unittest
from unittest import mock

from spanprof.command import Fault
from spanprof.predict.machine import Machine, Measured, machine_file, read_machine, write_machine


def costs(number):
    return {"dispatch": Measured(number, number + 1, number + 5, 9)}


class Samples(unittest.TestCase):
    def test_least_median_most(self):
        self.assertEqual(Measured.of([30, 10, 20]), Measured(10, 20, 30, 3))
        self.assertEqual(Measured.of(list(range(100, 0, -1))), Measured(1, 50, 90, 100))
        self.assertEqual(Measured.of([7]), Measured(7, 7, 7, 1))


class Machines(unittest.TestCase):
    def setUp(self):
        kept = tempfile.TemporaryDirectory()
        self.addCleanup(kept.cleanup)
        self.path = os.path.join(kept.name, "new", "machine.json")

    def test_the_nearest_number_of_threads(self):
        machine = Machine({2: costs(200), 4: costs(170)}, {})
        self.assertEqual([machine.cost("dispatch", n) for n in (1, 2, 3, 4, 64)], [200, 200, 200, 170, 170])
        self.assertEqual(machine.cost("steal", 4), 0)

    def test_written_and_read(self):
        made = Machine({1: costs(8), 4: costs(170)}, {"date": "2026-11-27T13:00:00Z", "processor": "one"})
        write_machine(made, self.path)
        self.assertEqual(read_machine(self.path), made)

    def test_what_is_no_model(self):
        for wrong in ("", "[]", "{}", '{"spanprof machine": 2, "threads": {}}',
                      '{"spanprof machine": 1, "threads": {}}',
                      '{"spanprof machine": 1, "threads": {"2": {"dispatch": {"least": 1}}}}'):
            os.makedirs(os.path.dirname(self.path), exist_ok=True)
            with open(self.path, "w", encoding="utf-8") as file:
                file.write(wrong)
            with self.assertRaisesRegex(Fault, "is not a model of a machine: .*--calibrate measures it"):
                read_machine(self.path)
        with self.assertRaisesRegex(Fault, "No such file.*; spanprof-record --calibrate measures it"):
            read_machine(self.path + ".other")

    def test_the_form(self):
        write_machine(Machine({2: costs(200)}, {}), self.path)
        with open(self.path, encoding="utf-8") as file:
            self.assertEqual(json.load(file), {"spanprof machine": 1, "unit": "ns", "threads": {
                "2": {"dispatch": {"least": 200, "median": 201, "most": 205, "times": 9}}}})

    def test_where(self):
        with mock.patch.dict(os.environ, {"XDG_CONFIG_HOME": "/set", "SPANPROF_MACHINE": ""}):
            self.assertEqual(machine_file(), "/set/spanprof/machine.json")
        with mock.patch.dict(os.environ, {"SPANPROF_MACHINE": "/mine.json"}):
            self.assertEqual(machine_file(), "/mine.json")


if __name__ == "__main__":
    unittest.main()
