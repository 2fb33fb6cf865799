import contextlib
import io
import unittest
from unittest import mock

from spanprof.command import OWN_FAULT, Fault
from spanprof.predict.machine import Machine, Measured
from spanprof.predict.program import read_program
from spanprof.record import calibrate, command
from spanprof.record.command import parse
from spanprof.tests.in_folder import answered

TREE = "omptasks 1 taskgroup {\ntask {  # one of the region's threads\nwork 15000\n%s}\n}\n"


class Calibrating(unittest.TestCase):
    def test_words(self):
        self.assertTrue(parse(["--calibrate"]).calibrate)
        with contextlib.redirect_stderr(io.StringIO()) as reported, self.assertRaises(SystemExit) as ended:
            parse(["--calibrate", "--", "./mine"])
        self.assertEqual(ended.exception.code, 2)
        self.assertIn("--calibrate takes no program", reported.getvalue())

    def test_numbers_of_threads(self):
        self.assertEqual([calibrate.numbers_up_to(n) for n in (1, 2, 4, 6)], [[1], [1, 2], [1, 2, 4], [1, 2, 4, 6]])

    def test_samples(self):
        self.assertEqual(calibrate.samples_of("task 326\nsteal 380\ntask 330\nno number\n"),
                         {"task": [326, 330], "steal": [380]})

    def test_a_task_as_texts_have_it(self):
        tree = "task {  # a.c:1\nwork 40\n}\nwork 60\n" * 19 + "task {  # a.c:1\nwork 9000\n}\n"
        self.assertEqual(calibrate.cost_of_a_task(read_program(TREE % tree)), 100)  # medians, without the thread's code

    def test_costs(self):
        found = calibrate.costs_on({"task": [330, 326], "steal": [380]}, [160, 170])
        self.assertEqual({name: (one.least, one.most) for name, one in found.items()},
                         {"creation": (160, 170), "dispatch": (166, 170), "steal": (380, 380)})
        self.assertEqual(calibrate.costs_on({"task": [80]}, [90])["dispatch"].least, 0)

    def test_a_line_for_each_number(self):
        lines = list(calibrate.table_lines(Machine({1: {"dispatch": Measured(8, 9, 10, 3)}, 2: {}}, {})))
        self.assertEqual(lines, ["on 1 thread, in ns: dispatch 8 (9 median, 10 most)", "on 2 threads, in ns: "])

    def test_a_program_that_fails(self):
        with self.assertRaisesRegex(Fault, "false 4 ended with status 1"):
            calibrate.run(["false", "4"], {})
        with self.assertRaisesRegex(Fault, "/none"):
            calibrate.run(["/none"], {})

    def test_a_fault_is_reported(self):
        with mock.patch("spanprof.record.calibrate.calibrate", side_effect=Fault("no runtime")), \
                mock.patch("signal.signal"):
            self.assertEqual(answered(command.main, ["--calibrate"]), (OWN_FAULT, "", "spanprof-record: no runtime\n"))

    def test_it_ends_in_time(self):
        with mock.patch.object(calibrate, "run", return_value="task 5\n") as run, \
                mock.patch("time.monotonic", side_effect=[0, 2, 9]):
            self.assertEqual(calibrate.unrecorded("p", "", 2, 5), {"task": [5, 5]})
        self.assertEqual(run.call_count, 2)


if __name__ == "__main__":
    unittest.main()
