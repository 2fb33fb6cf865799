"""What commands print and write, and their exit statuses."""
import contextlib
import io
import math
import pathlib
import tempfile
import types
import unittest
from unittest import mock

from spanprof.conformance import commands
from spanprof.conformance.judge.verdicts import Judge, Missing, Verdict
from spanprof.conformance.opening import unit_in
from spanprof.conformance.report.tests.test_texts import found_of, report_of
from spanprof.conformance.report.texts import publish
from spanprof.conformance.run.campaign import Journal, Took
from spanprof.conformance.tests.helpers import PLAN, StubBench, failure_of

WORKED = "omptasks 1\nwork 5 task { work 3 } work 2 taskwait work 1\n"
LOGS = "run 0\nstart 0 0\ndone\nrun 1\nstart 0 0\nstart 0 3\ndone\n"


class Quiet(unittest.TestCase):
    def setUp(self):
        folder = tempfile.TemporaryDirectory()
        self.addCleanup(folder.cleanup)
        self.folder = pathlib.Path(folder.name)

    def call(self, function, *words):
        """What a function answers, and what it prints."""
        with contextlib.redirect_stdout(io.StringIO()) as printed:
            answer = function(*words)
        return answer, printed.getvalue()


class Publishing(Quiet):
    def test_several_forms_of_one_report(self):
        names = [self.folder / f"all.{suffix}" for suffix in ("xml", "md")]
        self.call(publish, ",".join(map(str, names)), report_of())
        self.assertEqual([name.read_text()[:5] for name in names], ["<?xml", "# Con"])

    def test_report_with_its_programs(self):
        name = self.folder / "report.md"
        _, printed = self.call(publish, str(name), report_of(found=[found_of(failure_of())]))
        self.assertIn("| refused | taskwait | tied |", printed)
        self.assertEqual((self.folder / "report-1.tasks").read_text(), "# unit 1000\nomptasks 1\ntaskwait\n")
        self.assertEqual(unit_in(self.folder / "report-1.tasks"), 1000)
        self.assertEqual((self.folder / "report-1.c").read_text(), "int main(void);\n")
        self.assertTrue(name.read_text().startswith("# Conformance"))

    def test_the_verdict_comes_at_the_end(self):
        report = report_of(found=[found_of(failure_of())])
        report.took = Took(3, 1, 4)
        _, printed = self.call(publish, "", report)
        self.assertRegex(printed.split("\n")[-3], r"^\d+ programs, \d+ runs: \d+ programs failed, in \d+ ways$")

    def test_without_a_report_the_programs_are_printed(self):
        _, printed = self.call(publish, "", report_of(found=[found_of(failure_of())]))
        self.assertIn("spanprof-conformance shrink FILE", printed)
        self.assertEqual(list(self.folder.iterdir()), [])


class Stopping(Quiet):
    """A test is stopped after two programs, and the same command goes on."""

    def run_all(self, bench):
        options = types.SimpleNamespace(seed=1, programs=3, tasks=["tied"], match="in_final", jobs=1,
                                        seconds=math.inf)
        with contextlib.closing(Journal({"seed": "1"}, self.folder)) as journal:
            return commands.run_all(options, bench, PLAN, journal)

    def test_it_goes_on(self):
        class Stopped(StubBench):
            def try_case(self, case, all_conditions):
                if len(self.tried) == 2:
                    raise KeyboardInterrupt
                return super().try_case(case, all_conditions)

        results, is_whole = self.run_all(Stopped())
        self.assertEqual((len(results.outcomes), is_whole), (2, False))
        bench = StubBench()
        results, is_whole = self.run_all(bench)
        self.assertEqual((len(bench.tried), len(results.outcomes), is_whole), (2, 4, True))
        self.assertEqual(self.run_all(StubBench())[0].runs, results.runs)


class Judging(Quiet):
    def judged(self, log, verdict=Verdict("accepted")):
        program, logs = self.folder / "x.tasks", self.folder / "x.log"
        program.write_text(WORKED)
        logs.write_text(log)
        options = types.SimpleNamespace(file=program, log=logs)
        with mock.patch.object(commands, "found_judge", lambda: Judge("none")), \
                mock.patch.object(Judge, "record", lambda self, text: None), \
                mock.patch.object(Judge, "verdict", lambda self, text, record, log: verdict):
            return self.call(commands.command_judge, options, self.folder)

    def test_accepted(self):
        self.assertEqual(self.judged(LOGS), (0, "runs: 2, not accepted: 0\n"))

    def test_refused(self):
        status, printed = self.judged(LOGS, Verdict("refused", "event 0: NotRunning"))
        self.assertEqual(status, 1)
        self.assertIn("run 1: refused: event 0, `start 0 0`", printed)
        self.assertTrue(printed.endswith("runs: 2, not accepted: 2\n"))

    def test_log_without_runs(self):
        with self.assertRaisesRegex(Missing, "no line `run NUMBER`"):
            self.judged("hello\n")


class Listing(Quiet):
    def test_each_program_says_what_it_shows(self):
        status, printed = self.call(commands.command_list, None, None)
        self.assertEqual(status, 0)
        self.assertIn("taskwait_child ", printed)


if __name__ == "__main__":
    unittest.main()
