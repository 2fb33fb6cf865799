"""Groups that are cancelled: which logs are completed, and how."""
import unittest

from spanprof.conformance.emit.tasks import Emitter
from spanprof.conformance.generate.text_reader import read_program
from spanprof.conformance.judge.discarding import completed, digest_without, without_discarded
from spanprof.conformance.judge.segments import Table
from spanprof.conformance.judge.verdicts import Record
from spanprof.conformance.run.launch import Log

# Segments: 0 the root, 1 the one that cancels, 2 the root, 3 the other task, 4 the root, 5 after the group.
GROUP = "omptasks 2 taskgroup { task { #: cancels\n work 1 } task { work 1 } }"
AROUND = ["start 0 0", "finish 0 0", "start 1 1", "start 0 2", "finish 0 2", "start 0 4", "finish 0 4"]


def log_of(events, unlogged=False):
    return Log(0, "plain", list(events), "done", "", unlogged)


class Discarding(unittest.TestCase):
    def test_a_task_that_was_left_out_counts_as_run_after_the_end_of_the_one_that_cancels(self):
        log = completed(Table(read_program(GROUP)), log_of([*AROUND, "finish 1 1", "start 0 5", "finish 0 5"]))
        self.assertEqual(log.events, [*AROUND, "finish 1 1", "start 2 3", "finish 2 3", "start 0 5", "finish 0 5"])
        self.assertEqual(log.discarded, [3])
        self.assertEqual(without_discarded(log), [*AROUND, "finish 1 1", "start 0 5", "finish 0 5"])

    def test_nothing_is_left_out_before_that(self):
        events = [*AROUND, "start 0 5", "finish 0 5", "finish 1 1"]
        log = completed(Table(read_program(GROUP)), log_of(events))
        self.assertEqual(log.events, [*events, "start 2 3", "finish 2 3"])

    def test_a_task_that_has_begun_has_to_end(self):
        events = [*AROUND, "finish 1 1", "start 1 3", "start 0 5"]
        self.assertEqual(completed(Table(read_program(GROUP)), log_of(events)).events, events)

    def test_tasks_that_nobody_cancels_have_to_run(self):
        text = "omptasks 2 task { } taskgroup { task { #: cancels\n } taskgroup { task { } } }"
        table = Table(read_program(text))
        names = [bool(task.cancellers) for task in table.tasks]
        self.assertEqual(names, [False, False, True, False])

    def test_all_below_a_task_that_was_left_out(self):
        text = "omptasks 2 taskgroup { task { #: cancels\n } task { taskgroup { task { } } } }"
        table = Table(read_program(text))
        last = len(table.cost) - 1
        begun = [0, 1, 2, last - 1]
        log = completed(table, log_of(f"{what} 0 {s}" for s in begun for what in ("start", "finish")))
        self.assertEqual(log.discarded, sorted(set(range(last)) - set(begun)))

    def test_without_an_order(self):
        events = sorted([*AROUND, "finish 1 1", "start 0 5", "finish 0 5"])
        log = completed(Table(read_program(GROUP)), log_of(events, True))
        self.assertEqual(sorted(log.events), sorted([*events, "start 2 3", "finish 2 3"]))

    def test_digest(self):
        record = Record([[], [0], [0], [2], [2], [1, 3, 4]], "", "")
        costs = Table(read_program(GROUP)).cost
        one, other = 5 * 1 + 1, 5 * (3 + 2) + 1
        self.assertEqual(digest_without(record, costs, {}), str(0 + one + 2 + other + 6 + 5 + one + other + 6))
        self.assertEqual(digest_without(record, costs, {3}), str(0 + one + 2 + 6 + 5 + one + 6))

    def test_where_a_group_is_cancelled(self):
        def cancels(text):
            return [line for line in Emitter(read_program("omptasks 2 " + text)).lines if "cancel" in line]

        self.assertEqual(len(cancels("taskgroup { task { #: cancels\n } task { } }")), 1)
        self.assertEqual(len(cancels("taskgroup { for i 1 2 { task { #: cancels\n } } task { } }")), 1)
        for text in ("task { #: cancels\n }", "taskgroup { task { task { #: cancels\n } } }",
                     "taskgroup { task { #: cancels\n } task if(0) { } }",
                     "task final(1) { taskgroup { task { #: cancels\n } } }",
                     "taskgroup { task { #: cancels\n } task { taskgroup { #: taskyield\n } } }"):
            self.assertFalse(cancels(text), text)


if __name__ == "__main__":
    unittest.main()
