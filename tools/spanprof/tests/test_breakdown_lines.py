import json
import unittest

from spanprof.head import lasting
from spanprof.tests.proofs import with_a_proved_program
from spanprof.time_breakdown import Blocked, TimeBreakdown, as_json, breakdown_lines, lines_of, proved_sums

MS = 10 ** 6
setUpModule = with_a_proved_program


def account(**reported):
    """4 x 68 ms: a task of 128 ms ran beside others that were ready, and then alone."""
    made = TimeBreakdown(**dict(dict(threads=4, elapsed=68 * MS, busy=128 * MS, delayed=112 * MS, starved=24 * MS,
                                     outside=8 * MS), **reported))
    made.idle = ({"task at a.c:3": 84 * MS, "task at a.c:5": 28 * MS}, {"the beginning": 24 * MS})
    return made


class Lines(unittest.TestCase):
    def test_four_lines(self):
        self.assertEqual(breakdown_lines(account()), [
            "of 4 x 68.0 ms: 47.1 % in your code (measured)",
            "41.2 % scheduling delay; ready: task at a.c:3 (75 %), task at a.c:5 (25 %) (measured)",
            "8.8 % idle; running: the beginning (100 %) (measured)",
            "2.9 % startup and shutdown of the region (measured); " + proved_sums()])

    def test_code_that_was_held_up(self):
        found = account(blocked=Blocked(13600000, 27200000, 1000), recorder=2720000)
        self.assertEqual(breakdown_lines(found)[0],
                         "of 4 x 68.0 ms: 31.1 % in your code, 1.0 % the recorder's; 15.0 % blocked in it: 5.0 % "
                         "preempted, 10.0 % asleep (measured)")

        self.assertIn("5.0 % preempted or in the recorder, ", breakdown_lines(account(
            blocked=Blocked(13600000, 27200000, 1000), by_processor=True))[0])

    def test_places_of_next_to_nothing_are_left_out(self):
        found = account()
        found.idle = ({"task at a.c:3": 111 * MS, "task at a.c:5": MS // 2}, {})
        self.assertIn("; ready: task at a.c:3 (100 %) (measured)", breakdown_lines(found)[1])

    def test_code_without_times(self):
        self.assertEqual(breakdown_lines(account(left_out=27200000))[4:], [
            "up to 10.0 % in code of the region that has no times, and is idle here (measured)"])

    def test_a_region_that_lasted_no_time(self):
        empty = TimeBreakdown(2, 0, 0, 0, 0, 0)
        self.assertEqual(breakdown_lines(empty)[0], "of 2 x 0 ns: 0.0 % in your code (measured)")

    def test_why_there_is_none(self):
        why = "tasks did not run to their ends"
        self.assertEqual(lines_of(None, why), ["unavailable: " + why])
        self.assertEqual(lines_of(None), [])


class Words(unittest.TestCase):
    def test_three_digits(self):
        self.assertEqual([lasting(n) for n in (0, 7, 999, 1234, 68 * MS, 123456789, 1500 * MS, 12345 * MS)],
                         ["0 ns", "7 ns", "999 ns", "1.23 us", "68.0 ms", "123 ms", "1.50 s", "12.3 s"])

    def test_json(self):
        reported = json.loads(json.dumps(as_json(account(blocked=Blocked(1, 2, 3)))))
        self.assertEqual(sum(reported["parts"].values()), reported["threads"] * reported["elapsed"])
        self.assertEqual((reported["parts"]["asleep"], reported["parts"]["code"]), (2, 128 * MS - 6))
        self.assertEqual(sum(reported["delayed beside"].values()), reported["parts"]["delayed"])


if __name__ == "__main__":
    unittest.main()
