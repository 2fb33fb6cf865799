"""Tied tasks on their threads."""
import unittest

from spanprof.conformance.judge.segments import Table
from spanprof.conformance.tests.helpers import body_of
from spanprof.conformance.judge.tied import UNDEFERRED, moved, rule_of, unconstrained

EVENTS = ["start 0 0", "finish 0 0", "start 1 1", "finish 1 1", "start 2 2", "finish 2 2", "start 0 3", "finish 0 3"]


def words(text, *events):
    return moved(Table(body_of(text)), events)


class Tied(unittest.TestCase):
    def test_tasks_that_stay(self):
        self.assertIsNone(words("task { taskwait }", *EVENTS[:4], "start 1 2", "finish 1 2", *EVENTS[6:]))

    def test_task_that_moves(self):
        self.assertEqual(words("task { taskwait }", *EVENTS),
                         "event 4: thread 2 starts segment 2 (part 2 of 2 of task 1, `task`), which is tied and began "
                         "on thread 1")

    def test_untied_task_that_moves(self):
        self.assertIsNone(words("task { #: untied\n taskwait }", *EVENTS))

    def test_the_root_is_tied(self):
        self.assertIn("event 6: thread 3 starts segment 3 (part 2 of 2 of task 0",
                      words("task { #: untied\n taskwait }", *EVENTS[:6], "start 3 3"))


class Constraint(unittest.TestCase):
    """The task scheduling constraint, on two siblings of which the first waits for a child."""

    def reported(self, *events, text="task { task { } taskwait } task { } taskwait"):
        # Segments: 0 the root, 1 and 3 the first task, 2 its child, 4 its end, 5 the root, 6 the second task.
        return unconstrained(Table(body_of(text)), events)

    def test_a_sibling_of_a_suspended_task_may_not_begin(self):
        begun = ["start 0 0", "finish 0 0", "start 1 1", "finish 1 1", "start 1 3", "finish 1 3"]
        words = self.reported(*begun, "start 1 6")
        self.assertTrue(words.startswith("event 6: thread 1 begins segment 6"))
        self.assertIn("not below task 1", words)
        self.assertIsNone(self.reported(*begun, "start 2 6"))
        self.assertIsNone(self.reported(*begun, "start 1 2", "finish 1 2", "start 1 4", "finish 1 4", "start 1 6"))

    def test_untied_tasks_are_free(self):
        events = ["start 1 1", "finish 1 1", "start 1 3", "finish 1 3", "start 1 6"]
        first_untied = "task { #: untied\n task { } taskwait } task { } taskwait"
        second_untied = "task { task { } taskwait } task { #: untied\n } taskwait"
        self.assertIsNone(self.reported(*events, text=first_untied))
        self.assertIsNone(self.reported(*events, text=second_untied))

    def test_one_implicit_task_may_run_several_parts(self):
        text = "taskgroup { #: parallel\n task { task { } } task { taskgroup { task { } } } }"
        events = ["start 0 1", "finish 0 1", "start 0 3", "finish 0 3", "start 0 5", "finish 0 5", "start 0 2"]
        self.assertIsNone(self.reported(*events, text=text))

    def test_the_undeferred_task_of_an_untied_one(self):
        # Segments: 0 the root, 1 and 3 the first task, 2 its child, 4 its end, 5 the root, 6 the untied task, 7 its
        # child.
        text = "task { task { } taskwait } task { #: untied\n task if(0) { } } taskwait"
        events = ["start 1 1", "finish 1 1", "start 1 3", "finish 1 3", "start 1 6", "finish 1 6", "start 1 7"]
        words = self.reported(*events, text=text)
        self.assertIn("begins segment 7", words)
        self.assertEqual(rule_of(Table(body_of(text)), words), UNDEFERRED)
        self.assertIsNone(self.reported(*events, text=text.replace("{ #: untied", "final(1) { #: untied")))
        deferred = text.replace(" if(0)", "")
        self.assertEqual(rule_of(Table(body_of(deferred)), self.reported(*events, text=deferred)), "unconstrained")

    def test_what_is_below_may_begin(self):
        self.assertIsNone(self.reported("start 0 0", "finish 0 0", "start 0 1", "finish 0 1", "start 0 2"))


if __name__ == "__main__":
    unittest.main()
