"""Starting programs and reading their logs; the programs are scripts of the shell."""
import dataclasses
import os
import pathlib
import tempfile
import unittest
import unittest.mock

from spanprof.conformance.run.launch import OVERWRITTEN, SETTINGS, Log, breakdown, command_of, launch, read_logs
from spanprof.conformance.tests.helpers import conditions

TEXT = """run 0 plain
start 0 0
finish 0 0
done 17
run 1 late
start 0 0
hung asleep
run 2 creation
overflow
signal 11
run 3 scattered
"""


class Reading(unittest.TestCase):
    def test_logs(self):
        self.assertEqual(read_logs(TEXT), [
            Log(0, "plain", ["start 0 0", "finish 0 0"], "done", "17"),
            Log(1, "late", ["start 0 0"], "hung", "asleep"),
            Log(2, "creation", ["overflow"], "crashed", "11"),
            Log(3, "scattered", [], "crashed", "")])

    def test_runs_that_run_away(self):
        log, = read_logs("run 2 plain\nstart 0 0\nrunaway: more than two gigabytes of memory\n")
        self.assertEqual((log.end, log.detail), ("crashed", "runaway: more than two gigabytes of memory"))

    def test_what_the_program_saw_itself(self):
        log, = read_logs("run 3 plain\nwrong data of a task: 3 was seen, 4 is right\nvalue 3 26 31\ndone 17\n")
        self.assertEqual((log.wrong, log.value), ("data of a task: 3 was seen, 4 is right", "3 26 31"))

    def test_turns_of_taskloops(self):
        log, = read_logs("run 3 plain\nstart 0 0\nfinish 0 0\nturn 1 1\nturn 3 1\ndone 17\n")
        self.assertEqual((log.events, log.turns), (["start 0 0", "finish 0 0"], [[1, 1], [3, 1]]))

    def test_runs_without_an_order(self):
        log, = read_logs("run 3 late unlogged\nstart 0 0\nfinish 0 0\ndone 17\n")
        self.assertEqual((log.schedule, log.unlogged, log.end), ("late", True, "done"))

    def test_logs_of_other_runtimes(self):
        self.assertEqual(read_logs("run 7\nstart 1 0\ndone\n"), [Log(7, "", ["start 1 0"], "done", "")])

    def test_what_comes_before_the_first_run_is_left_out(self):
        self.assertEqual(read_logs("start 0 0\ndone 1\nhello\n"), [])


class Commands(unittest.TestCase):
    def test_words_of_a_setting(self):
        words, variables = command_of("prog", conditions(4, "priorities"))
        self.assertEqual(words, ["prog", "4", "3", "1", "1000", "5"])
        self.assertEqual(variables, {"OMP_MAX_TASK_PRIORITY": "9", **OVERWRITTEN})

    def test_pinned_to_one_of_our_processors(self):
        words, variables = command_of("prog", conditions(4, "pinned"))
        self.assertEqual(words[:2] + words[3:4], ["taskset", "-c", "prog"])
        self.assertIn(int(words[2]), os.sched_getaffinity(0))
        self.assertEqual(variables, OVERWRITTEN)

    def test_delays_in_the_runtime(self):
        _, variables = command_of("prog", dataclasses.replace(conditions(2), perturb="12:1a2b+"))
        self.assertEqual(variables, {"PERTURB": "12:1a2b+"})

    def test_every_setting_has_words_and_variables(self):
        for setting in SETTINGS:
            self.assertIn("prog", command_of("prog", conditions(2, setting))[0])

    def test_breakdowns(self):
        self.assertEqual(breakdown("11", 3, "oh\nmore"), "signal 11: oh")
        self.assertEqual(breakdown("", -6, ""), "signal 6")
        self.assertEqual(breakdown("", 4, ""), "status 4")
        self.assertEqual(breakdown("", None, "oh"), "")

    def test_complaints_of_sanitizers(self):
        self.assertEqual(breakdown("", 1, "=====\n==7==ERROR: at 0x1\nSUMMARY: AddressSanitizer: x task.c:3 in f\n"),
                         "status 1: SUMMARY: AddressSanitizer: x task.c:3 in f")
        self.assertEqual(breakdown("", 66, "=====\nWARNING: some race\n"), "status 66: WARNING: some race")


class Launching(unittest.TestCase):
    def launched(self, script, timeout=5):
        with tempfile.TemporaryDirectory() as folder:
            program = pathlib.Path(folder) / "prog"
            program.write_text("#!/bin/sh\n" + script)
            program.chmod(0o755)
            return launch(program, dataclasses.replace(conditions(), runs=1, timeout=timeout), dict(os.environ))

    def test_whole_runs(self):
        logs = self.launched("echo run 0 plain; echo start 0 0; echo done 5")
        self.assertEqual(logs, [Log(0, "plain", ["start 0 0"], "done", "5")])

    def test_program_that_breaks_down_in_a_run(self):
        log, = self.launched("echo run 0 plain; echo start 0 0; echo bad luck >&2; kill -ABRT $$")
        self.assertEqual((log.end, log.detail), ("crashed", "signal 6: bad luck"))

    def test_program_that_breaks_down_between_runs(self):
        logs = self.launched("echo run 0 plain; echo done 5; exit 9")
        self.assertEqual([log.end for log in logs], ["done", "crashed"])
        self.assertEqual(logs[1].detail, "status 9")

    def test_program_that_says_nothing(self):
        self.assertEqual([log.end for log in self.launched("exit 1")], ["crashed"])

    def test_program_that_has_to_be_killed(self):
        with unittest.mock.patch("spanprof.conformance.run.launch.LONGEST", 0):
            log, = self.launched("echo run 0 plain; exec sleep 60", timeout=1)
        self.assertEqual((log.end, log.detail), ("hung", ""))


if __name__ == "__main__":
    unittest.main()
