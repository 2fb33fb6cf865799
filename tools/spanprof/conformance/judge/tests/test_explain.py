"""What is said of a run that was not accepted."""
import unittest

from spanprof.conformance.generate.text_reader import read_program
from spanprof.conformance.judge.explain import CUT_SHORT, OF_EXCLUSIVE, explain
from spanprof.conformance.judge.rules import RULES
from spanprof.conformance.judge.segments import Table
from spanprof.conformance.judge.verdicts import Verdict
from spanprof.conformance.run.launch import Log

WORKED = "omptasks 1\nwork 5 task { work 3 } work 2 taskwait work 1\n"
DEPENDENCE = "omptasks 1\ntask depend(out: x) { } task depend(in: x) { }\n"
GROUP = "omptasks 1\ntaskgroup { task { task { } } }\n"


def reported(text, detail, event, kind="refused", place=1):
    events = ["start 0 0"] * place + [event]
    return explain(text, Verdict(kind, detail), Log(0, "plain", events, "done"))


class Refusals(unittest.TestCase):
    def rule(self, text, before, event):
        found = reported(text, f"event 1: NotReady {before}", event)
        self.assertIn(str(RULES[found.rule]), found.words)
        return found.rule, found.words

    def test_each_rule(self):
        self.assertEqual(self.rule(WORKED, 0, "start 0 1")[0], "creation")
        self.assertEqual(self.rule(WORKED, 2, "start 0 3")[0], "order")
        self.assertEqual(self.rule("omptasks 1 task if(0) { }", 1, "start 0 2")[0], "undeferred")
        self.assertEqual(self.rule("omptasks 2 task final(1) { task { } }", 2, "start 0 3")[0], "undeferred")

    def test_taskwait(self):
        rule, words = self.rule(WORKED, 1, "start 3 3")
        self.assertEqual(rule, "taskwait")
        self.assertIn("event 1, `start 3 3`: thread 3 starts segment 3 (part 3 of 3 of task 0, `the root`) before "
                      "segment 1 (part 1 of 1 of task 1, `task`) has finished", words)

    def test_dependence(self):
        rule, words = self.rule(DEPENDENCE, 1, "start 1 3")
        self.assertEqual(rule, "dependence")
        self.assertIn("`in: x` of task 2 conflicts with `out: x` of its sibling task 1", words)

    def test_group(self):
        self.assertIn("task 1, which was created inside it", self.rule(GROUP, 3, "start 1 5")[1])
        self.assertIn("task 2, which is below a task that was created inside it", self.rule(GROUP, 2, "start 1 5")[1])

    def test_several_steps(self):
        rule, words = self.rule(WORKED, 0, "start 0 3")
        self.assertEqual(rule, "order")
        self.assertIn("by several rules together", words)

    def test_other_refusals(self):
        self.assertEqual(reported(WORKED, "event 1: AlreadyStarted", "start 1 0").rule, "twice")
        self.assertEqual(reported(WORKED, "event 1: WorkerBusy", "start 0 1").rule, "two at once")
        self.assertEqual(reported(WORKED, "event 1: NotRunning", "finish 1 0").rule, "not running")
        self.assertIn("segment 9", reported(WORKED, "event 1: UnknownSegment", "start 0 9").words)

    def test_a_turn_that_runs_again(self):
        text = "omptasks 2 taskgroup { #: taskloop\n for i 3 4 { task { } } }"
        found = reported(text, "event 1: AlreadyStarted", "start 1 3")
        self.assertEqual(found.rule, "iterations")
        self.assertIn("iteration 4 of 3..4 of a taskloop), which has begun before. Expected: ", found.words)

    def test_what_the_program_saw_itself(self):
        log = Log(0, "plain", [], "done", wrong="iterations of a taskloop: 12 ran, of 1..11")
        found = explain(WORKED, Verdict("values", log.wrong), log)
        self.assertEqual((found.rule, found.words),
                         ("iterations of a taskloop", f"{log.wrong}. Expected: {RULES['iterations']}."))

    def test_what_is_no_event(self):
        self.assertEqual(reported(WORKED, "another record than that of `run`", "start 0 0").rule,
                         "another record than that of `run`")
        self.assertEqual(reported(WORKED, "digest 1 and not 2", "start 0 0", kind="values").rule, "values")


class Untied(unittest.TestCase):
    """Segment 1 is the first of an untied task."""

    def test_the_rest_beside_a_cancelled_group(self):
        text = "omptasks 1 taskgroup { task { #: untied\n task { task { } } taskwait } task { #: cancels\n } }"
        table = Table(read_program(text))
        rest, end = table.tasks[1].segments[-1], table.tasks[0].segments[-1]
        begun = [f"{what} 0 {s}" for s in (0, 1) for what in ("start", "finish")]

        def rule(text, before, *events):
            log = Log(0, "plain", [*begun, *events, f"start 0 {end}"], "done")
            return explain(text, Verdict("refused", f"event {len(log.events) - 1}: NotReady {before}"), log).rule

        self.assertEqual(rule(text, rest), CUT_SHORT)
        self.assertEqual(rule(text, rest, f"start 1 {rest}"), "taskgroup")  # it runs, but too late
        self.assertEqual(rule(text.replace("#: untied", ""), rest), "taskgroup")
        self.assertEqual(rule(text.replace("#: cancels", ""), rest), "taskgroup")
        child = table.tasks[2].segments[0]  # of it, which the first part creates: it may have been left out by itself
        self.assertNotEqual(rule(text, child), CUT_SHORT)

    def test_nothing_waits_for_the_rest(self):
        text = "omptasks 1 task { #: untied\n taskgroup { task { #: cancels\n } task { } } }"
        events = [f"{what} 0 {s}" for s in (0, 1, 2, 7) for what in ("start", "finish")]
        kinds = {rule.rule for rule in (explain(text, Verdict("incomplete"), Log(0, "plain", some, "done"))
                                        for some in (events, events[:-2]))}
        self.assertEqual(kinds, {CUT_SHORT, "incomplete"})


class LeftOver(unittest.TestCase):
    """Tasks with mutexinoutset that never began, or that began though only an earlier run had created them."""
    text = "omptasks 2 taskgroup { #: parallel\n task { task depend(inoutset: x) { #: mutexinoutset\n task { } } } }"

    def rule(self, detail, event, text=text):
        return reported(text, f"event 1: {detail}", event).rule

    def test_each_rule(self):
        table = Table(read_program(self.text))
        outer, exclusive, below = (task.segments for task in table.tasks[1:])
        end = f"start 0 {table.tasks[0].segments[-1]}"
        plain = self.text.replace("mutexinoutset", "")
        for rule, detail, event in (("taskgroup", f"NotReady {exclusive[-1]}", end),
                                    ("taskgroup", f"NotReady {below[0]}", end),
                                    ("creation", f"NotReady {outer[0]}", f"start 1 {exclusive[0]}"),
                                    ("twice", "AlreadyStarted", f"start 1 {below[0]}")):
            self.assertEqual(self.rule(detail, event), rule + OF_EXCLUSIVE, event)
            self.assertEqual(self.rule(detail, event, plain), rule, event)

    def test_a_task_that_begins_after_its_region(self):
        table = Table(read_program(self.text))
        exclusive, end = f"start 1 {table.tasks[2].segments[0]}", f"start 0 {table.tasks[0].segments[-1]}"
        for events, added in ((["start 0 0", end, exclusive], OF_EXCLUSIVE), (["start 0 0", exclusive, end], "")):
            detail = f"event {events.index(end)}: NotReady {table.tasks[2].segments[-1]}"
            found = explain(self.text, Verdict("refused", detail), Log(0, "plain", events, "done"))
            self.assertEqual(found.rule, "taskgroup" + added)

    def test_other_tasks_and_groups(self):
        table = Table(read_program(self.text))
        end = table.tasks[0].segments[-1]
        self.assertEqual(self.rule("AlreadyStarted", "start 0 0"), "twice")
        self.assertEqual(self.rule(f"NotReady {table.tasks[1].segments[-1]}", f"start 0 {end}"), "taskgroup")
        group = self.text.replace("#: parallel\n", "")
        self.assertEqual(self.rule(f"NotReady {table.tasks[3].segments[0]}", f"start 0 {end}", group), "taskgroup")


class Stops(unittest.TestCase):
    def test_hung(self):
        log = Log(0, "late", ["start 0 0", "finish 0 0", "start 1 1"], "hung")
        found = explain(WORKED, Verdict("hung"), log)
        self.assertEqual(found.rule, "at after a task")
        self.assertEqual(found.words, "Hung, with 1 of 4 segments finished; running: segment 1 (part 1 of 1 of task 1, "
                                      "`task`); ready, but not started: segment 2 (part 2 of 3 of task 0, `the root`)."
                                      f" Expected: {RULES['end']}.")

    def test_crashed(self):
        found = explain(WORKED, Verdict("crashed", "signal 6: oh"), Log(0, "late", [], "crashed", "signal 6: oh"))
        self.assertEqual(found.rule, "signal 6: oh")
        self.assertTrue(found.words.startswith("Crashed (signal 6: oh), with 0 of 4 segments finished"))

    def test_large_programs_list_nothing_ready(self):
        text = "omptasks 2 for i 1 600 { task { } }"
        self.assertNotIn("Ready", explain(text, Verdict("hung"), Log(0, "late", [], "hung")).words)


if __name__ == "__main__":
    unittest.main()
