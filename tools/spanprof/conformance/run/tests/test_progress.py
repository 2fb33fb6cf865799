"""What is reported while a test goes on."""
import io
import unittest
from unittest import mock

from spanprof.conformance.judge.cases import Tally
from spanprof.conformance.run.campaign import TO_LINE_END, Progress, rough
from spanprof.conformance.tests.helpers import PLAN, case_of, failure_of


class Telling(unittest.TestCase):
    def said(self, cases, done, seconds, is_terminal=True, tallies=()):
        """The lines of a test of so many cases, of which some end, each after so many seconds."""
        clock = iter(range(0, 1000 * seconds, seconds))
        with mock.patch("sys.stderr", new=io.StringIO()) as said, \
                mock.patch("time.perf_counter", lambda: next(clock)):
            said.isatty = lambda: is_terminal
            progress = Progress(cases)
            for _ in range(done):
                progress.add(tallies)
        return said.getvalue()

    def test_what_is_done_and_the_time_that_is_left(self):
        self.assertEqual(self.said(4, 2, 30).split("\r")[1:],
                         [f"1 of 4 cases, 0 with failures, about 90 s left{TO_LINE_END}",
                          f"2 of 4 cases, 0 with failures, about 60 s left{TO_LINE_END}"])

    def test_the_end(self):
        self.assertEqual(self.said(1, 1, 30), f"\r1 of 1 cases, 0 with failures{TO_LINE_END}\n")

    def test_a_log_has_a_line_soon_then_each_half_minute_and_the_last(self):
        lines = self.said(6, 6, 10, is_terminal=False).splitlines()
        self.assertEqual([line.split(",")[0] for line in lines], ["1 of 6 cases", "3 of 6 cases", "5 of 6 cases",
                                                                  "6 of 6 cases"])

    def test_a_log_has_a_line_where_no_case_ends(self):
        with mock.patch("sys.stderr", new=io.StringIO()) as said:
            progress = Progress(4)
            progress.tick()
            progress.next = progress.begun
            progress.tick()
        self.assertEqual(said.getvalue(), "0 of 4 cases, 0 with failures\n")

    def test_a_kind_of_failure_once(self):
        tally = Tally(PLAN, failures=[failure_of(case_of("b")), failure_of(case_of("c"))])
        said = self.said(3, 2, 1, is_terminal=False, tallies=[tally])
        self.assertEqual(said, "failed: b (tied) on 2 threads: refused: taskwait\n")

    def test_times(self):
        self.assertEqual([rough(0.4), rough(119), rough(150), rough(3600)], ["0 s", "119 s", "2 min", "60 min"])


if __name__ == "__main__":
    unittest.main()
