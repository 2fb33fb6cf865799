"""The parts of the page on the worked programs."""
import re
import unittest
from html import unescape
from unittest.mock import patch

from spanprof.recording import Program, Region
from spanprof.remarks import remark_of
from spanprof.report.part_curve import curve_part, step_of
from spanprof.report.part_diagnosis import first_part
from spanprof.report.part_numbers import numbers_part
from spanprof.report.part_places import places_part
from spanprof.report.tests import worked
from spanprof.report.timeline import timeline_part
from spanprof.tests.proofs import with_a_proved_program

setUpModule = with_a_proved_program

TURNS = remark_of({"remark": "turns together", "span": "high"})


def seen(piece):
    """The words of a part, without its elements and tooltips."""
    return unescape(re.sub(r"\s+", " ", re.sub(r"<[^>]*>", " ", re.sub(r"<title.*?</title>", "", piece))))


class Patched(unittest.TestCase):
    def setUp(self):
        patched = worked.patched()
        patched.start()
        self.addCleanup(patched.stop)


class Numbers(Patched):
    def reported(self, name="mesh", **head):
        """The words of the table, where the head tells this too."""
        view = worked.view(name)
        for key, value in head.items():
            setattr(view.answers.head, key, value)
        return seen(numbers_part(view))

    def test_of_the_text_and_the_run(self):
        words = self.reported()
        for part in ("work, all costs 41 µs measured", "span, the longest chain 31 µs proved of the text",
                     "tasks 5 recorded", "segments 13 recorded", "threads busy, on average 1.02 measured",
                     "elapsed 40 µs measured", "speedup on 2 threads, at most 1.33 proved of the text",
                     "lock critical at mesh.c:9: 3 times", "recorded from mesh, the parallel region at mesh.c:6",
                     "Asked: spanprof_large places < mesh.tasks"):
            self.assertIn(part, words)

    def test_the_time_breakdown_and_true_times(self):
        words = self.reported("split")
        shares = re.findall(r"([\d.]+) % measured of the threads' time", words)
        self.assertAlmostEqual(sum(map(float, shares)), 100, delta=0.2)
        self.assertIn("proved of the recorded text", words)
        self.assertIn("true speedup on 2 threads", words)

    def test_a_lock_binds(self):
        words = self.reported(most_held=36)
        self.assertIn("speedup on 2 threads, at most 1.14 proved of the text bound by the lock held longest", words)

    def test_how_much_of_the_program_it_is(self):
        self.assertIn("coverage 80.3 % of the program's thread-time",
                      self.reported(covered=41, thread_time=51, not_covered={}))

    def test_divided_code(self):
        view = worked.view("mesh")
        view.answers.head.divided, view.answers.wanted_threads = ["loops, 3 times at mesh.c:9"], 4
        words = seen(numbers_part(view))
        self.assertIn("speedup on 4 threads proved of the text on another number of threads its code", words)
        self.assertNotIn("at most", words)

    def test_the_spread_of_several_runs(self):
        words = self.reported(runs=7, spread={"work": (39, 41, 1044), "span": (30, 31, 36)})
        self.assertIn("the one of 7 runs with the median elapsed time", words)
        self.assertIn("39 µs to 1.04 ms in 7 runs", words)
        self.assertIn("30 µs to 36 µs in 7 runs", words)

    def test_no_claim_against_a_remark(self):
        words = self.reported(remarks=[TURNS])
        self.assertIn("31 µs proved of the text the program's may be less (warnings)", words)
        self.assertIn("Warnings of the recording", words)

    def test_without_a_diagnosis_they_are_not_folded(self):
        self.assertIn("<details open", numbers_part(worked.view("plain")))
        self.assertIn("on any number of threads at most 1.33 times as fast", seen(first_part(worked.view("mesh"))))


class OfOneProgram(Patched):
    def setUp(self):
        super().setUp()
        self.view = worked.view("mesh")

    def test_places(self):
        words = seen(places_part(self.view))
        self.assertIn("6 segments are on the critical path", words)
        self.assertRegex(words, r"task at mesh.c:10 #pragma omp task depend\(in: x\) 14 µs 34.1 % 19.4 % 0 µs 2 7.5 µs")
        self.assertNotIn("idle while it ran", words)

    def test_idle_time_by_place(self):
        words = seen(places_part(worked.view("split")))
        self.assertIn("idle while it ran", words)
        self.assertNotIn("scheduling delay", words)

    def test_curve(self):
        part = curve_part(self.view)
        self.assertEqual(part.count('class="dot"'), 16)
        self.assertIn("2 threads: 1.02, work / elapsed of the recorded run", part)
        self.view.answers.head.threads = 1
        self.assertIn("it was recorded on one thread, and says nothing about more", curve_part(self.view))

    def test_what_was_reached_is_inside_the_picture(self):
        mark = re.search(r'd="M\S+ (\S+)l7 7l-7 7l-7 -7z"', curve_part(worked.view("odd")))
        self.assertGreater(float(mark[1]), 0)

    def test_a_run_with_times_is(self):
        view = worked.view("split")
        self.assertIn("The run as it was , 2 threads , 28 µs", seen(timeline_part(view)))
        self.assertIn("all threads thread 0 thread 1", seen(timeline_part(view)))

    def test_regions_are_chosen(self):
        view = worked.view("split")
        regions = [Region(1 + i, 0, *stretch, 2, 0, 0, 0, 0, place) for i, (*stretch, place) in enumerate(
            ((0, 9000, "a.c:1"), (9000, 10000, "b.c:2"), (10000, 20000, "a.c:1"), (20000, 20500, "")))]
        with patch("spanprof.report.timeline.program_of", return_value=Program(28000, regions)):
            found = timeline_part(view)
        self.assertIn("the whole run region at a.c:1, the longest of 2 region at b.c:2 a region", seen(found))
        self.assertIn('value="10.000 20.000"', found)

    def test_no_run(self):
        view = worked.view("plain")
        self.assertIn("There are no recorded times of its segments, so only the greedy schedule is shown.",
                      seen(timeline_part(view)))


class Pieces(unittest.TestCase):
    def test_ticks(self):
        self.assertEqual([step_of(most) for most in (3, 16, 64, 1024)], [1, 2, 8, 128])
