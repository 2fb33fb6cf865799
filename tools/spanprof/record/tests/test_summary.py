import unittest
from unittest import mock
from array import array

from spanprof.command import Fault
from spanprof.head import Lock
from spanprof.record.summary import other_region, summary
from spanprof.record.tests.made_up import Answers, Head
from spanprof.remarks import remark_of
from spanprof.report.figures import rounded_down, rounded_up
from spanprof.tests.proofs import with_a_proved_program

setUpModule = with_a_proved_program

EXPECTED = """\
sort.tasks, region at sort.c:48, 4 threads, costs in us of wall time
covers        97.0 % of the program's thread-time in code (measured)
tasks         1; 3 segments (recorded)
runs          1; --runs 9 measures the variation
work          100 us: code of 4 threads (measured)
span          70 us: lower bound of the run time on any number of threads (proved of the recorded text)
parallelism   1.43: work / span, the greatest speedup on any number of threads (proved of the recorded text)
elapsed       40 us on 4 threads: 2.50 of them busy on average (measured)
threads       speedup at most 2: 1.43, 4: 1.43, 8: 1.43, 16: 1.43 (proved of the recorded text)
              speedup at least 2: 1.17, 4: 1.29, 8: 1.36, 16: 1.40 for a greedy schedule; tied tasks can do worse (proved of the recorded text)
span by place 71.4 % of the span, 50.0 % of the work: after a taskwait (measured)
              28.6 % of the span, 20.0 % of the work: the beginning (measured)
warnings      none"""
NOT_OF_ONE = "critical path of the recorded text; it was recorded on one thread, and says nothing about more"
DIVIDED = "on another number of threads its code is divided differently"


def lines_of(**reported):
    """The summary's lines by their names, where the head tells what is given here."""
    out, name = {}, ""
    for line in summary(Answers(head=Head(**reported))):
        name = line[:13].strip() or name
        out.setdefault(name, []).append(line[14:])
    return out


class Lines(unittest.TestCase):
    maxDiff = None

    def test_a_recording(self):
        self.assertEqual("\n".join(summary(Answers())), EXPECTED)

    def test_the_whole_program(self):
        heading, *_ = summary(Answers(head=Head(region="", whole="2 regions")))
        self.assertEqual(heading, "sort.tasks, the whole program, 4 threads, costs in us of wall time")

    def test_functions_of_places(self):
        lines = lines_of(functions={"sort.c:9": "in merge, inlined into sort at sort.c:30"})["span by place"]
        self.assertNotIn("in merge", "".join(lines))
        answers = Answers(head=Head(functions={"sort.c:9": "in merge"}))
        answers.path_segments = [0, 1, 2]
        self.assertIn("task at sort.c:9 in merge (measured)", "".join(summary(answers)))

    def test_places_whose_sums_nobody_has(self):
        with mock.patch.object(Answers, "sums", side_effect=Fault("spanprof_large is not found")):
            self.assertIn("span by place left out: spanprof_large is not found", summary(Answers()))

    def test_remarks_locks_and_news(self):
        turns = remark_of({"remark": "turns together", "span": "high"})
        head = Head(remarks=[turns], locks=[Lock("critical at a.c:3", 2, 5, 0, "us")], elapsed=None)
        lines = summary(Answers(head=head), news=["mine.2 is not written"])
        self.assertEqual(lines[-3:], ["warnings      chunk with more iterations than pieces: span too high",
                                      "              lock critical at a.c:3: 2 times, 5.00 us inside, 0 ns waiting",
                                      "              mine.2 is not written"])
        self.assertIn("elapsed       unknown", lines)

    def test_sleep_is_no_work_of_the_processors(self):
        lines = summary(Answers(), asleep=(60, 50))
        for line in ("work          100 us, 60 us of it asleep: code of 4 threads (measured)",
                     "elapsed       40 us on 4 threads: 1.00 of them busy on average, 1.50 asleep (measured)"):
            self.assertIn(line, lines)
        self.assertIn("span          70 us, 50 us of it asleep: lower bound", "\n".join(lines))

    def test_a_lock_bounds_the_parallelism(self):
        self.assertTrue(lines_of(most_held=80)["parallelism"][0].endswith("; 1.25 by the lock held longest"))
        self.assertNotIn("lock", lines_of(most_held=70)["parallelism"][0])

    def test_pieces_of_loops_are_no_tasks_of_the_program(self):
        head = Head(region="", whole="1 region, 2 loops in 80 pieces", pieces=80)
        self.assertIn("tasks         8, 80 pieces of loops, 8 implicit tasks; 3 segments (recorded)",
                      summary(Answers(tasks=96, parts=8, head=head)))

    def test_parts_are_no_tasks_of_the_program(self):
        answers = Answers(tasks=179, parts=149)
        self.assertIn("tasks         30, 149 implicit tasks; 3 segments (recorded)",
                      summary(answers))

    def test_a_text_without_costs(self):
        answers = Answers(work=0, span=0)
        answers.code.cost[:] = array("Q", [0, 0, 0])
        answers.curve = {p: {"least": 0, "bound": 0} for p in (2, 4, 8, 16)}
        self.assertIn("parallelism   1.00", "\n".join(summary(answers)))

    def test_a_unit_that_is_a_number(self):
        self.assertEqual(lines_of(unit="250 ns")["work"], ["100 x 250 ns: code of 4 threads (measured)"])

    def test_an_account(self):
        lines = summary(Answers(), account=["of 4 x 40 us: 62.5 % in code (measured)", "10.0 % idle"])
        at = lines.index("breakdown     of 4 x 40 us: 62.5 % in code (measured)")
        self.assertEqual(lines[at + 1], "              10.0 % idle")
        self.assertTrue(lines[at - 1].startswith("elapsed"))

    def test_other_regions(self):
        other = "sort.tasks, region at sort.c:48: work 100 us, span 70 us"
        self.assertEqual(other_region(Answers()), other)
        self.assertEqual(summary(Answers(), others=[other])[-1], "other ranks   " + other)

    def test_no_bound_is_reported_better_than_it_is(self):
        self.assertEqual((rounded_down(1999, 1000), rounded_up(1999, 1000)), ("1.99", "2.00"))
        self.assertEqual((rounded_down(200, 100), rounded_up(200, 100)), ("2.00", "2.00"))
        self.assertEqual((rounded_down(0, 0), rounded_up(0, 0)), ("1.00", "1.00"))
        self.assertEqual((rounded_down(10 ** 15 - 1, 7), rounded_up(10 ** 15, 3)),
                         ("142857142857142.71", "333333333333333.34"))


class WhatTheTextIsNot(unittest.TestCase):
    """Where the head tells that the text is not the program, the line says that, and nothing proved."""

    def test_one_thread(self):
        lines = lines_of(threads=1)
        self.assertEqual(lines["work"], ["100 us: code of one thread (measured)"])
        self.assertEqual(lines["span"], ["70 us: " + NOT_OF_ONE])
        self.assertEqual(lines["threads"], ["it was recorded on one thread, and says nothing about more"])
        self.assertNotIn("proved", lines["parallelism"][0])

    def test_divided_code(self):
        lines = lines_of(divided=["loops, 120 times at spmd.c:6"])
        self.assertEqual(lines["span"], ["70 us: critical path of the recorded text; " + DIVIDED])
        self.assertEqual(lines["parallelism"], ["1.43: work / span of the recorded text; " + DIVIDED])
        self.assertTrue(lines["threads"][0].startswith("speedup at most 4: 1.43 "))
        self.assertEqual(lines["threads"][2], DIVIDED)

    def test_the_code_of_threads_beside_each_other(self):
        """Below a twentieth of the text it changes little."""
        self.assertIn("proved", lines_of(beside=4)["span"][0])
        self.assertIn(DIVIDED, lines_of(beside=5)["span"][0])
        self.assertIn(DIVIDED, lines_of(divided=["loops, 1 time at a.c:3"], beside=4)["span"][0])

    def test_a_part_of_the_program(self):
        lines = lines_of(covered=382, thread_time=1001, not_covered={"outside regions": 19, "in other regions": 600})
        part = "(proved of the recorded text, a part of the program)"
        self.assertEqual(summary(Answers(head=Head(covered=382, thread_time=1001)))[0],
                         "sort.tasks, region at sort.c:48, only 38.1 % of the program's thread-time, 4 threads, "
                         "costs in us of wall time")
        self.assertEqual(lines["covers"], ["38.1 % of the program's thread-time in code; not covered: "
                                           "19 us outside regions, 600 us in other regions (measured)"])
        for name in ("span", "parallelism", "threads"):
            self.assertTrue(lines[name][0].endswith(part), name)

    def test_a_full_log(self):
        lines = lines_of(covered=99, covers_at_most=True)
        self.assertTrue(lines["covers"][0].startswith("at most 99.0 % of the program's thread-time in code"))
        self.assertIn("(proved of the recorded text, a part of the program)", lines["span"][0])

    def test_nothing_reported_of_what_is_covered(self):
        self.assertEqual(lines_of(covered=None, thread_time=None)["covers"],
                         ["unknown share of the program's thread-time"])

    def test_remarks(self):
        too_high = lines_of(remarks=[remark_of({"remark": "turns together", "span": "high"})])
        self.assertEqual(too_high["span"][0], "70 us: critical path of the recorded text; the program's may be less "
                                              "(warnings)")
        self.assertNotIn("proved", too_high["parallelism"][0] + too_high["threads"][0])
        self.assertEqual(len(too_high["threads"]), 2)
        too_low = lines_of(remarks=[remark_of({"remark": "mutexinoutset", "span": "low"})])
        self.assertIn("(proved of the recorded text)", too_low["span"][0])
        self.assertEqual(len(too_low["threads"]), 1)
        either = lines_of(remarks=[remark_of({"remark": "cancellation", "work": "either", "span": "either"})])
        self.assertNotIn("proved", "".join(either["span"] + either["parallelism"] + either["threads"]))

    def test_both_clocks(self):
        reported = {"affected": 72, "work": 101, "by": 3000, "times": 9}
        self.assertEqual(lines_of(clocks_differ=reported)["both clocks"], [
            "wall and processor time differ by more than 5 % in 71.2 % of the work, by 3.00 ms in all (measured)"])
        self.assertNotIn("both clocks", lines_of())

    def test_locks(self):
        lines = lines_of(locks=[Lock("critical at a.c:3", 2, 80, 0)], most_held=80)
        self.assertEqual(lines["locks"], ["80 us inside the lock held longest: speedup at most 1.25 (measured)"])
        self.assertEqual(len(lines["threads"]), 1)
        self.assertTrue(lines["threads"][0].startswith("speedup at most 2: 1.25, 4: 1.25"))
        self.assertNotIn("proved", lines["threads"][0])

    def test_a_lock_beside_a_remark(self):
        remark = remark_of({"remark": "preempted", "times": 9, "work": "high", "span": "high"})
        lines = lines_of(locks=[Lock("critical at a.c:3", 2, 80, 0)], most_held=80, remarks=[remark])
        self.assertEqual(lines["locks"], ["80 us inside the lock held longest; another run may hold it for less "
                                          "(warnings) (measured)"])
        self.assertIn("(of the recorded text; the program's may be more (warnings))", lines["threads"][0])

    def test_a_lock_that_is_held_for_less_than_the_span(self):
        lines = lines_of(locks=[Lock("critical at a.c:3", 2, 50, 0)], most_held=50)
        self.assertNotIn("locks", lines)
        self.assertIn("4: 1.43", lines["threads"][0])

    def test_the_spread_of_several_runs(self):
        lines = lines_of(runs=7, spread={"work": (90, 100, 120), "span": (60, 70, 75)})
        self.assertEqual(lines["runs"], ["7, and each cost is that of the run with the median elapsed time of those "
                                         "least disturbed (measured)"])
        self.assertTrue(lines["work"][0].startswith("100 us (90 us to 120 us in 7 runs): code"))
        self.assertTrue(lines["span"][0].startswith("70 us (60 us to 75 us in 7 runs): lower bound"))


if __name__ == "__main__":
    unittest.main()
