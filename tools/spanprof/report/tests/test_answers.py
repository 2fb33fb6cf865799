import unittest
from unittest import mock

from spanprof.answers import Answers
from spanprof.client import Refused, named_numbers
from spanprof.report.tests import worked
from spanprof.report.tests.worked import pieces_of


class OfTheWorkedProgram(unittest.TestCase):
    def setUp(self):
        patch = worked.patched()
        patch.start()
        self.addCleanup(patch.stop)
        self.reported = []
        self.answers = Answers(worked.path("mesh.tasks"), tell=self.reported.append)

    def test_numbers_of_span(self):
        self.assertEqual(self.answers.span_numbers, {"tasks": 5, "segments": 13, "work": 41, "span": 31})
        self.assertEqual((self.answers.work, self.answers.span, self.answers.tasks), (41, 31, 5))

    def test_each_command_is_asked_once_and_reported(self):
        for _ in range(2):
            self.assertEqual(len(self.answers.rows.cost), 13)
        self.assertEqual(self.reported, ["spanprof_large slack < mesh.tasks"])
        self.assertEqual(self.answers.asked, self.reported)

    def test_rows(self):
        self.assertEqual([column[8] for column in self.answers.rows], [8, 4, 17, 3, 0])

    def test_threads_of_the_recording(self):
        self.assertEqual(self.answers.threads, 2)
        self.assertEqual(Answers(worked.path("mesh.tasks"), 7).threads, 7)
        self.assertEqual(Answers(worked.path("plain.tasks")).threads, 4)

    def test_curve(self):
        self.assertEqual(max(self.answers.curve), 16)
        self.assertEqual(self.answers.curve[1], {"threads": 1, "end": 41, "least": 41, "bound": 41})

    def test_greedy(self):
        found = self.answers.greedy
        self.assertEqual((found.starts[0], found.threads[0], found.threads[9], found.end), (0, 0, -1, 31))

    def test_predecessors(self):
        self.assertEqual(self.answers.predecessors[2], [0])
        self.assertIn(1, self.answers.predecessors[3])

    def test_a_text_read_otherwise_is_refused(self):
        other = pieces_of(lambda *_: "segment,task,cost,start,slack,chain\n0,3,1,0,0,1\n")
        with mock.patch("spanprof.client.pieces", other):
            with self.assertRaises(AssertionError):
                self.answers.rows


LONG = {("--upto", "64"): "threads,least,bound\n" + "".join("%d,31,41\n" % p for p in range(1, 65))}


class OfALongText(unittest.TestCase):
    """The worked program, where it is called long: its program makes greedy schedules on given threads alone."""

    def setUp(self):
        kept = worked.Kept()

        def reported(words, text):
            return LONG.get(tuple(words)) or kept(words, text)

        for patch in (worked.patched(), mock.patch("spanprof.answers.is_long", return_value=True),
                      mock.patch("spanprof.client.ask", reported)):
            patch.start()
            self.addCleanup(patch.stop)
        self.answers = Answers(worked.path("mesh.tasks"))

    def test_curve(self):
        self.assertEqual(self.answers.curve[2], {"threads": 2, "least": 31, "bound": 41})
        self.assertEqual(max(self.answers.curve), 64)
        self.assertEqual(self.answers.asked, ["spanprof_large --upto 64 < mesh.tasks"])

    def test_schedules(self):
        self.assertEqual([p for p, row in self.answers.schedules.items() if "end" in row], [2])
        self.assertEqual(self.answers.schedules[2], {"threads": 2, "least": 31, "bound": 41, "end": 31})
        self.assertEqual(self.answers.asked[1:], ["spanprof_large greedy --threads 2 < mesh.tasks"])

    def test_too_little_memory(self):
        with mock.patch("spanprof.client.columns", side_effect=Refused(["greedy"], "", "error: out of memory")):
            self.assertEqual(self.answers.schedules[2], {"threads": 2, "least": 31, "bound": 41})


class Lines(unittest.TestCase):
    def test_named_numbers(self):
        self.assertEqual(named_numbers("work 11\nspan 9\n"), {"work": 11, "span": 9})
