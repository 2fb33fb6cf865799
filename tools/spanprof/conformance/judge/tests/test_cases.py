"""Cases, built by a stub in place of a compiler: each program is a script that writes one log again and again."""
import os
import pathlib
import tempfile
import unittest
from unittest import mock

from spanprof.conformance.generate.program import VARIANTS
from spanprof.conformance.judge.cases import Bench, Examined, Plan, team_of
from spanprof.conformance.judge.exclusion import first_overlap
from spanprof.conformance.judge.verdicts import TOO_MANY, Record, Verdict
from spanprof.conformance.run.launch import Log
from spanprof.conformance.run.toolchain import BuildFailed
from spanprof.conformance.tests.helpers import PLAN, body_of, case_of, conditions

LOG = "start 0 0\nfinish 0 0\nstart 1 1\nstart 0 2\nfinish 0 2\nfinish 1 1\nstart 0 3\nfinish 0 3\n"
EARLY = "start 0 0\nfinish 0 0\nstart 1 1\nstart 0 2\nfinish 0 2\nstart 0 3\nfinish 0 3\nfinish 1 1\n"


class StubToolchain:
    """Builds scripts in a folder; they write `logs` in turn, a run for each of them."""

    def __init__(self, folder, logs):
        self.folder, self.logs, self.built = pathlib.Path(folder), logs, 0

    def build(self, _source, name):
        self.built += 1
        if not self.logs:
            raise BuildFailed("no such pragma")
        program = self.folder / name
        runs = [f"run {number} plain\n{log}done 1\n" for number, log in enumerate(self.logs)]
        program.write_text("#!/bin/sh\ncat << 'END'\n" + "".join(runs) + "END\n")
        program.chmod(0o755)
        return program

    def forget(self, programs):
        for program in programs:
            program.unlink()


class StubJudge:
    """Refuses logs that are EARLY, finds others without events incomplete, and counts what it is asked."""

    def __init__(self):
        self.asked, self.search = 0, first_overlap

    def record(self, _text):
        return Record([[], [0], [0], [1, 2]], "1", "")

    def verdict(self, _text, _record, log):
        self.asked += 1
        if "\n".join([*log.events, ""]) == EARLY:
            return Verdict("refused", "event 5: NotReady 1")
        return Verdict("accepted") if log.events else Verdict("incomplete", "finished 0 of 4 segments")


class CutShort(unittest.TestCase):
    def judged(self, *events):
        judge, case = StubJudge(), case_of(text="taskgroup { task { #: cancels\n } task { } }")
        return Examined(case, judge).judged(Log(0, "plain", list(events), "done"), True), judge.asked

    def test_a_log_without_events_of_discarded_tasks_is_not_judged(self):
        self.assertEqual(self.judged("start 0 0", "overflow"), (TOO_MANY, 0))
        self.assertEqual(self.judged("start 0 0"), (Verdict("accepted"), 1))


class Teams(unittest.TestCase):
    def test_outside_of_regions_there_is_one_thread(self):
        tasks, regions = body_of("task { } taskwait"), body_of("taskgroup { #: parallel\n task { } }")
        self.assertEqual(team_of(tasks, conditions(4)), 4)
        self.assertEqual(team_of(tasks, conditions(4, "orphaned")), 1)
        self.assertEqual(team_of(regions, conditions(4, "orphaned")), 4)


class Plans(unittest.TestCase):
    def settings(self, name, *settings):
        plan = Plan((1, 2, 4, 16), 1, 1, 5, settings)
        return {at.setting for at in plan.conditions(case_of(name))}

    def test_settings_that_programs_favour(self):
        self.assertIn("unthrottled", self.settings("pressure_queue", *["free"] * 40, "interrupted", "unthrottled"))
        self.assertIn("interrupted", self.settings("pressure_queue", *["free"] * 40, "interrupted"))
        self.assertIn("interrupted", self.settings("pressure_waits", *["free"] * 40, "interrupted", "unthrottled"))
        self.assertIn("trees", self.settings("barrier_of_for", *["free"] * 40, "trees"))
        self.assertEqual(self.settings("crowd-7", "free"), {"free"})


class Cases(unittest.TestCase):
    def setUp(self):
        folder = tempfile.TemporaryDirectory()
        self.addCleanup(folder.cleanup)
        self.folder = folder.name

    def tallies(self, *logs):
        """The bench, and the tallies of a case whose program writes these logs."""
        bench = Bench(StubToolchain(self.folder, logs), StubJudge(), dict(os.environ))
        return bench, bench.try_case(case_of(), PLAN.conditions(case_of()))

    def test_accepted(self):
        _, tallies = self.tallies(LOG, LOG, LOG)
        self.assertEqual([tally.conditions.threads for tally in tallies], [2, 4])
        self.assertEqual((tallies[0].runs, tallies[0].events, tallies[0].failures), (3, 24, []))
        self.assertEqual(tallies[0].schedules, {"plain": 3})
        counted = {key[2]: count for key, count in tallies[0].coverage.items() if key[:2] == ("taskwait", "taskwait")}
        self.assertEqual(counted, {"waits": 3, "held": 3, "close": 3})
        self.assertEqual(tallies[0].coverage["once", "task", "held"], 3)

    def test_refused(self):
        _, tallies = self.tallies(LOG, EARLY)
        failure, = tallies[0].failures
        self.assertEqual(failure.signature, ("tied", "refused", "taskwait"))
        self.assertIn("the taskwait of task 0 waits for its child task 1", failure.words)
        self.assertEqual(failure.log.number, 1)

    def test_nothing_is_judged_after_a_run_that_left_a_task_over(self):
        _, tallies = self.tallies(LOG, "", EARLY)
        self.assertEqual((tallies[0].runs, [failure.verdict.kind for failure in tallies[0].failures]),
                         (2, ["incomplete"]))

    def test_tied_task_on_another_thread(self):
        _, tallies = self.tallies(LOG.replace("0 3", "1 3"))
        self.assertEqual(tallies[0].failures[0].signature, ("tied", "moved", "moved"))
        self.assertIn("event 6: thread 1 starts segment 3", tallies[0].failures[0].words)

    def test_refused_runs_count_for_no_coverage(self):
        _, tallies = self.tallies(EARLY)
        self.assertEqual(tallies[0].coverage, {})

    def test_equal_logs_are_judged_once(self):
        bench, tallies = self.tallies(LOG, LOG, EARLY, LOG)
        self.assertEqual(bench.judge.asked, 4)  # two logs on two numbers of threads
        self.assertEqual([(tally.runs, tally.judged) for tally in tallies], [(4, 2), (4, 2)])

    def test_logs_without_an_order_are_not_judged_by_spanprof(self):
        bench = Bench(StubToolchain(self.folder, [LOG]), StubJudge(), dict(os.environ))
        logs = [Log(0, events=LOG.splitlines(), unlogged=True), Log(1, events=LOG.splitlines())]
        with mock.patch("spanprof.conformance.judge.cases.launch", lambda *_: logs):
            (tally,) = bench.try_case(case_of(), PLAN.conditions(case_of())[:1])
        self.assertEqual((tally.runs, tally.judged), (2, 1))

    def test_settings_that_names_ask_for(self):
        plan = Plan((1, 2, 4), 1, 1, 1, ("free", "cancellable", "priorities"))
        for name, setting in (("cancel_deep", "cancellable"), ("priority_flat", "priorities")):
            self.assertEqual([plan.conditions(case_of(name))[at].setting for at in (0, 2)], [setting, setting])
        untied = plan.conditions(case_of("cancel_deep", variant="untied"))
        self.assertEqual(untied[1].setting, "cancellable")
        self.assertEqual({at.setting for at in Plan((1, 2), 1, 1, 1).conditions(case_of("cancel_deep"))}, {"free"})

    def test_self_checking_programs_take_no_setting_of_the_harness(self):
        plan = Plan((1, 2, 4), 1, 1, 1, ("free", "cancellable", "passive"))
        taken = {at.setting for at in plan.conditions(case_of("cancel_loop", variant="self-checking"))}
        self.assertEqual(taken, {"free", "passive"})

    def test_tied_and_untied_tasks_of_a_program_take_other_settings(self):
        plan = Plan((1, 2), 1, 1, 1, ("free", "pinned", "bound", "active", "passive", "sleepy"))
        settings = [at.setting for variant in VARIANTS for at in plan.conditions(case_of(variant=variant))]
        self.assertEqual(set(settings), set(plan.settings))

    def test_short_programs_run_very_often_where_logs_are_equal(self):
        (often,) = Plan((4,), 3, 7, 1, ("free", "hurried")).conditions(case_of("hurry-1"))
        self.assertEqual((often.runs, often.seed, often.setting), (30, 0, "hurried"))
        (other,) = Plan((4,), 3, 7, 1, ("free",)).conditions(case_of("hurry-1"))
        self.assertEqual((other.runs, other.seed, other.setting), (3, 7, "free"))

    def test_not_built(self):
        bench, tallies = self.tallies()
        self.assertEqual([tally.failures[0].signature for tally in tallies], [("tied", "not built", "not built")] * 2)
        self.assertEqual((tallies[0].runs, tallies[0].failures[0].words), (0, "no such pragma"))
        self.assertEqual(bench.programs, {})

    def test_one_source_is_built_once_until_it_is_forgotten(self):
        bench, _ = self.tallies(LOG)
        bench.try_case(case_of(), PLAN.conditions(case_of()))
        self.assertEqual(bench.toolchain.built, 1)
        bench.forget()
        self.assertEqual(os.listdir(self.folder), [])
        bench.try_case(case_of(), PLAN.conditions(case_of()))
        self.assertEqual(bench.toolchain.built, 2)


if __name__ == "__main__":
    unittest.main()
