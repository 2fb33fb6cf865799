import contextlib
import io
import json
import os
import pathlib
import tempfile
import unittest
from unittest import mock

from spanprof.command import Fault
from spanprof.predict import command, predictions
from spanprof.predict.estimate import Estimate
from spanprof.predict.machine import Machine, Measured, write_machine
from spanprof.predict.recorded import recorded
from spanprof.remarks import in_words
from spanprof.tests.proofs import with_a_proved_program

setUpModule = with_a_proved_program

HEAD = '# recorded: {"program": "a", "threads": %d, "clock": "wall", "unit": "us"}\n' \
    '# region: {"at": "a.c:9", "number": 1, "of": 1}\n'
TEXT = HEAD + "# elapsed: 30\nomptasks 1\n" + "task {  # a.c:1\nwork 10\n}\n" * 4


class InAFolder(unittest.TestCase):
    def setUp(self):
        kept = tempfile.TemporaryDirectory()
        self.addCleanup(kept.cleanup)
        self.folder = kept.name
        read = mock.patch("spanprof.client.read", side_effect=lambda path: pathlib.Path(path).read_text("utf-8"))
        read.start()
        self.addCleanup(read.stop)

    def write(self, name, text):
        path = os.path.join(self.folder, name)
        with open(path, "w", encoding="utf-8") as file:
            file.write(text)
        return path


class Recordings(InAFolder):
    def test_in_nanoseconds(self):
        self.write("a.timed", TEXT % 2 + "---\ntimes 2 100 40000\n1 0 350 5000\n0 0 300 350\n\n2 1 500 39900\n")
        found = recorded(self.write("a.tasks", TEXT % 2))
        self.assertEqual((found.work, found.threads, found.elapsed, found.outside), (40000, 2, 30000, 300))
        self.assertTrue(found.is_timed)

    def test_no_times(self):
        found = recorded(self.write("a.tasks", TEXT % 2))
        self.assertEqual((found.outside, found.is_timed), (0, False))

    def test_damaged_times(self):
        for row in ("0 0 300 {}", "0 0", "times"):
            self.write("a.timed", TEXT % 2 + "---\ntimes 2 100 40000\n%s\n" % row)
            with self.assertRaisesRegex(Fault, "a.tasks is damaged: "):
                recorded(self.write("a.tasks", TEXT % 2))

    def test_what_tells_no_time(self):
        for text, why in (("omptasks 1 task { }\n", "it is no recording"),
                          (TEXT.replace("omptasks 1", "omptasks 2") % 2, "it is no recording"),
                          ('# divided: {"what": "loops", "times": 1}\n' + TEXT % 2, "divided among")):
            with self.assertRaisesRegex(Fault, "a.tasks: no time is predicted: .*%s" % why):
                recorded(self.write("a.tasks", text))


class Command(InAFolder):
    def setUp(self):
        super().setUp()
        self.machine = os.path.join(self.folder, "machine.json")
        costs = {name: Measured(cost, cost, cost, 1) for name, cost in (("dispatch", 200), ("steal", 400))}
        write_machine(Machine({2: costs}, {}), self.machine)

    def answer(self, *words):
        reported = io.StringIO()
        with contextlib.redirect_stdout(reported), mock.patch.dict(os.environ, SPANPROF_MACHINE=self.machine), \
                mock.patch("spanprof.client.ask", return_value="segments 9\nwork 40800\nspan 10200\n"):
            command.answer(command.parse([*words]))
        return reported.getvalue()

    def test_lines(self):
        first, two, four, last = self.answer(self.write("a.tasks", TEXT % 2)).splitlines()
        self.assertEqual(first, "a.tasks, region at a.c:9, recorded on 2 threads in 30.0 us: with 0.200 us a dispatch "
                                "and 0.400 us a steal (measured on this machine)")
        self.assertRegex(two, r"^on 2 threads: 2\d.\d us predicted \(.* us to .* us\), 20.4 us at least "
                              r"\(proved, of the burdened text\); without what")
        self.assertRegex(four, r"^on 4 threads: 1\d.\d us predicted .*, 10.2 us at least")
        self.assertIn("not proved", last)

    def test_gccs_runtime(self):
        first, *_, last = self.answer(self.write("a.tasks", TEXT % 2), "--runtime", "gnu").splitlines()
        self.assertIn("with 0.410 us of the team's lock a task (gcc 12's, measured on another machine)", first)
        self.assertIn("of gcc's scheduling", last)
        reported = json.loads(self.answer(self.write("b.tasks", TEXT % 2), "--runtime", "gnu", "--json"))
        self.assertEqual(reported["predicted"][0]["runtime"], "gnu")

    def test_growth_is_reported(self):
        one = self.write("one.tasks", TEXT % 1)
        two = self.write("two.tasks", (TEXT % 2).replace("work 10", "work 12"))
        reported = json.loads(self.answer(one, two, "--threads", "4", "--json"))
        self.assertEqual((reported["text"], reported["unit"]), ("two.tasks", "ns"))
        untimed, grown = reported["predicted"][0]["notes"]
        self.assertTrue(untimed.startswith("without what passes outside of the region's code"))
        self.assertEqual(grown, "with +12 % of work, as it grew on the threads that were recorded")

    def test_what_is_not_matched_is_reported(self):
        one = self.write("one.tasks", (TEXT % 1).replace("# a.c:1", "# other.c:1"))
        reported = json.loads(self.answer(one, self.write("two.tasks", TEXT % 2), "--threads", "4", "--json"))
        self.assertIn("100 % of the work is matched in no other recording", reported["predicted"][0]["notes"])

    def test_the_burdened_text(self):
        out = os.path.join(self.folder, "burdened.tasks")
        self.answer(self.write("a.tasks", TEXT % 2), "-o", out)
        with open(out, encoding="utf-8") as file:
            text = file.read()
        self.assertIn('"unit": "ns"}\n', text)
        self.assertIn("# remark: a burdened text, with 0.200 us a dispatch for 4 threads: ", in_words(text))
        self.assertEqual(text.count("work 10200\n"), 4)

    def test_several_of_one_number(self):
        several = ("a.tasks", "work 30", "34"), ("b.tasks", "work 11", "32"), ("c.tasks", "work 10", "30")
        paths = [self.write(name, (TEXT % 2).replace("work 10", work).replace("30", elapsed))
                 for name, work, elapsed in several]
        first, two, *_ = self.answer(*paths).splitlines()
        self.assertIn("a.tasks, region at a.c:9, recorded 3 times on 2 threads in 30.0 us to 34.0 us: with", first)
        self.assertRegex(two, "^on 2 threads: 2[23].. us predicted .*; the median by 3 recordings")

    def test_without_what_other_programs_took(self):
        text = ("# preempted: [[1, 7], [9, 3]]\n" + TEXT % 2).replace("work 10", "work 17", 1)
        two = self.answer(self.write("a.tasks", text)).splitlines()[1]
        self.assertRegex(two, "^on 2 threads: 2.* us predicted .*; without 7.00 us that other programs took meanwhile")

    def test_slow_recordings_are_left_out(self):
        paths = [self.write(name, TEXT.replace("elapsed: 30", "elapsed: %d" % elapsed) % 2)
                 for name, elapsed in (("a.tasks", 40), ("b.tasks", 41), ("c.tasks", 47))]
        two = self.answer(*paths).splitlines()[1]
        self.assertRegex(two, "; the median by 2 recordings")

    def test_what_shows_a_slow_moment(self):
        """Two near one another, of which the quicker counts; else the middle one. One alone stays."""
        for times, left in (([100], 1), ([100, 116], 1), ([100, 114], 2), ([100, 104, 116], 3), ([100, 103, 116], 2),
                            ([70, 100, 103, 114, 116], 4), ([60, 70, 80, 92, 93], 5), ([60, 70, 80, 93, 97], 3),
                            ([0, 0], 2)):
            several = [mock.Mock(elapsed=time) for time in times]
            self.assertEqual(len(predictions.undisturbed(several)), left, times)

    def test_no_time_is_less_than_the_least(self):
        """As a run's may be, in which the recorder's time is no more."""
        one = Estimate(mock.Mock(), 2, 70, 50, 90, [], 0)
        for least, times in ((60, (70, 90)), (80, (80, 90)), (95, (95, 95))):
            with mock.patch.object(predictions, "least_end", return_value=least):
                found, reported = predictions.with_least(one)
            self.assertEqual((found.time, found.high, reported), (*times, least))

    def test_two_regions(self):
        paths = [self.write("a.tasks", TEXT % 2), self.write("b.tasks", TEXT.replace("a.c:9", "b.c:7") % 1)]
        with self.assertRaisesRegex(Fault, "not of one region, but of those at a.c:9 and b.c:7"):
            self.answer(*paths)

    def test_numbers(self):
        self.assertEqual(command.parse(["a", "--threads", "8,2,8"]).threads, [2, 8])
        for wrong in ("0", "1,x", "1025", ""):
            with contextlib.redirect_stderr(io.StringIO()), self.assertRaises(SystemExit) as ended:
                command.parse(["a", "--threads", wrong])
            self.assertEqual(ended.exception.code, 2)

    def test_one_thread_and_no_model(self):
        with self.assertRaisesRegex(Fault, "^b.tasks was recorded on one thread"):
            self.answer(self.write("b.tasks", TEXT % 1))
        with mock.patch.dict(os.environ, SPANPROF_MACHINE=self.machine + ".none"):
            self.assertEqual(predictions.changed_reported(self.write("a.tasks", TEXT % 2), str, 2), ([], None))

    def test_of_a_changed_text(self):
        self.write("a.timed", TEXT % 2 + "---\ntimes 2 0 40000\n0 0 300 39000\n")
        path = self.write("a.tasks", TEXT % 2)

        def changed(before):
            self.assertEqual(before, TEXT % 2)
            return "omptasks 1\nwork 40\n"
        with mock.patch.dict(os.environ, SPANPROF_MACHINE=self.machine), \
                mock.patch("spanprof.client.ask", return_value="segments 9\nwork 40800\nspan 10200\n"):
            (line,), reported = predictions.changed_reported(path, changed, 2)
            self.assertRegex(line, r"^on 2 threads: 2\d.\d us predicted \(.*\), 20.4 us at least \(proved, of the "
                                   r"burdened text\); of the changed text 41.3 us predicted \(.*\), 20.4 us at least "
                                   r"\(proved, of the burdened text\) \(by a model\)$")
            self.assertEqual((reported["changed text"]["time"], reported["text"]["least"], reported["threads"]),
                             (41300, 20400, 2))
            lines, reported = predictions.changed_reported(self.write("c.tasks", "omptasks 1\n"), changed, 2)
            self.assertRegex(lines[0], "^no time is predicted: .*it is no recording$")
            self.assertIn("it is no recording", reported["none"])


if __name__ == "__main__":
    unittest.main()
