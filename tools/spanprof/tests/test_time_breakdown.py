import os
import tempfile
import unittest
from array import array
from unittest import mock

from spanprof.command import Fault
from spanprof.head import Lock
from spanprof.record.tests.made_up import Answers, Head
from spanprof.remarks import remark_of
from spanprof.tests.columns import code_of, rows_of
from spanprof.time_breakdown import (Blocked, NoBreakdown, TimeBreakdown, breakdown_by_kind, breakdown_of,
                                     divide_busy, recorded_breakdown, times_name)

SUMS = "threads 2\nelapsed 14\nbusy 11\ndelayed 7\nstarved 8\noutside 2\n"
ROWS = [(0, 0, 0, 5), (0, 5, 6, 9), (0, 5, 9, 11), (1, 11, 12, 13)]


def reported(_, words, *__):
    """spanprof_large account of the worked run of docs/MODEL.md."""
    return rows_of(ROWS) if words else SUMS


def answers(work=11, **of_head):
    made = Answers(work=work, head=Head(**dict(dict(threads=2, elapsed=14, unit="ns"), **of_head)))
    made.code = code_of([*made.code, made.code[0]])
    return made


def divided(busy=100, work=60, **of_head):
    return divide_busy(TimeBreakdown(2, 100, busy, 0, 0, 0), Head(**dict(dict(unit="ns"), **of_head)), work)


class Asked(unittest.TestCase):
    def account(self, made):
        with mock.patch("spanprof.time_breakdown.answered", reported):
            return breakdown_of(made.head, made.work, "mine.timed", list(made.code.places))

    def test_the_sums_and_the_rows(self):
        found = self.account(answers())
        self.assertEqual((found.busy, found.delayed, found.starved, found.outside), (11, 7, 8, 2))
        self.assertEqual((found.whole, found.code, [column[3] for column in found.rows]), (28, 11, [1, 11, 12, 13]))

    def test_by_place(self):
        asked = []

        def places(path, numbers, wanted, times):
            asked.extend((path, list(numbers), wanted, list(times)))
            return array("q", [3, 0, 4]), array("q", [7, 0, 1])

        found = self.account(answers())
        with mock.patch("spanprof.client.places", places):
            self.assertEqual(found.delayed_by, {"after a taskwait": 4, "the beginning": 3})
            self.assertEqual(found.starved_by, {"the beginning": 7, "after a taskwait": 1})
        self.assertEqual(asked, ["mine.timed", [0, 1, 2, 0], ("delayed", "starved"),
                                 ["times 2 0 14\n", "0 0 0 5\n", "1 0 6 9\n", "2 0 9 11\n", "3 1 12 13\n"]])

    def test_by_kind_without_rows(self):
        asked = []

        def places(*words, **more):
            asked.extend((words, more))
            return [5, 4, 2], [3, 0, 4], [7, 0, 1]

        with tempfile.TemporaryDirectory() as folder:
            path = os.path.join(folder, "times")
            with open(path, "w", encoding="utf-8") as file:
                file.write("times 2 3 17\n")
            with mock.patch("spanprof.client.places", places):
                found = breakdown_by_kind(answers().head, 11, "mine.tasks", [0, 1, 2, 0], ["a", "b", "a"], path)
            self.assertEqual(asked, [("mine.tasks", [0, 1, 2, 0], ("busy", "delayed", "starved")),
                                     {"file_of_times": path}])
        self.assertEqual((found.threads, found.elapsed, found.busy, found.outside), (2, 14, 11, 2))
        self.assertEqual((found.code, found.delayed_by, found.starved_by), (11, {"a": 7}, {"a": 8}))
        with self.assertRaisesRegex(NoBreakdown, "No such file"):
            breakdown_by_kind(answers().head, 11, "mine.tasks", [0], ["a"], "nowhere")

    def test_on_as_few_threads_as_ran_at_once(self):
        rows = rows_of([(9, 0, 0, 4), (7, 0, 2, 6), (5, 0, 3, 3), (5, 0, 4, 8), (9, 0, 6, 7)])
        self.assertEqual(rows.on_few_threads, rows._replace(thread=array("q", [0, 1, 0, 0, 1])))

    def test_times_of_another_text(self):
        made = answers()
        made.code = code_of(list(made.code)[:-1])
        with self.assertRaisesRegex(NoBreakdown, "there are times of 4 segments, and not of 3"):
            self.account(made)

    def test_lines_that_are_rounded_down(self):
        self.assertEqual(self.account(answers(work=1, covered=1)).recorder, 10)
        self.assertEqual(self.account(answers(work=1, covered=9)).recorder, 2)

    def test_what_the_text_leaves_out(self):
        self.assertEqual(self.account(answers(not_covered={"of this region": 3}, untimed=2)).left_out, 5)


class Divided(unittest.TestCase):
    LOCKS = [Lock("critical at a.c:3", 8, 75, 7), Lock("2 others together", 3, 4, 2)]

    def test_by_the_wall_clock(self):
        found, recorder = divided(clocks_differ={"by": 10}, slept={"by": 20}, locks=self.LOCKS)
        self.assertEqual((found.preempted, found.asleep, found.at_locks, found.all), (10, 20, 9, 39))
        self.assertEqual(recorder, 31)

    def test_no_more_than_the_time_in_code(self):
        found, recorder = divided(busy=25, work=0, clocks_differ={"by": 10}, slept={"by": 20}, locks=self.LOCKS)
        self.assertEqual((found.preempted, found.asleep, found.at_locks, recorder), (10, 15, 0, 0))

    def test_by_the_processors_clock(self):
        found, recorder = divided(clock="cpu", clocks_differ={"by": 10}, locks=self.LOCKS)
        self.assertEqual((found.preempted, found.asleep, found.at_locks, recorder), (21, 10, 9, 0))

    def test_of_costs_that_leave_out_what_others_took(self):
        found, recorder = divided(clock="own", taken_off={"by": 10}, slept={"by": 20}, locks=self.LOCKS)
        self.assertEqual((found.preempted, found.asleep, found.at_locks, recorder), (10, 20, 9, 21))

    def test_in_another_unit(self):
        found, recorder = divided(busy=100000, work=60, unit="us", clocks_differ={"by": 10})
        self.assertEqual((found.preempted, recorder), (10000, 40000))

    def test_a_recording_that_tells_nothing(self):
        self.assertEqual(divided(work=100), (Blocked(), 0))


class Beside(unittest.TestCase):
    def setUp(self):
        kept = tempfile.TemporaryDirectory()
        self.addCleanup(kept.cleanup)
        self.made = answers()
        self.made.path = os.path.join(kept.name, "mine.tasks")

    def beside(self):
        with mock.patch("spanprof.time_breakdown.answered", reported):
            found, why = recorded_breakdown(self.made)
        return found and found.busy, why

    def write(self):
        for ending in (".tasks", ".timed"):
            with open(self.made.path.removesuffix(".tasks") + ending, "w", encoding="utf-8"):
                pass

    def test_the_document_beside_the_text(self):
        self.assertEqual(times_name(self.made.path), "")
        self.write()
        self.assertEqual(self.beside(), (11, ""))
        self.assertEqual(times_name(self.made.path), "mine.timed")

    def test_no_room_for_the_document(self):
        self.write()
        with mock.patch("spanprof.time_breakdown.document", side_effect=Fault("/tmp/x: File too large")):
            self.assertEqual(self.beside(), (None, "/tmp/x: File too large"))

    def test_why_there_is_none(self):
        self.assertEqual(self.beside(), (None, ""))
        self.made.head.remarks = [remark_of({"remark": "unfinished task", "times": 1, "work": "low", "span": "low"})]
        self.assertEqual(self.beside(), (None, "tasks did not run to their ends"))


if __name__ == "__main__":
    unittest.main()
