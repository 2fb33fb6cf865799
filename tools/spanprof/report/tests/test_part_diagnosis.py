import re
import unittest

from spanprof.diagnosis.changes import single
from spanprof.diagnosis.diagnose import Diagnosis, Step, diagnose
from spanprof.diagnosis.losses import Loss, code_on_one, losses
from spanprof.diagnosis.names import Names
from spanprof.diagnosis.output import Output
from spanprof.diagnosis.tests.test_sentences import SOURCES, TASKS, found
from spanprof.diagnosis.tests.worked import MS
from spanprof.report.part_diagnosis import first_screen, has_room, parts


def reported():
    run = found(starved=200 * MS, starved_by={TASKS: 150 * MS, "the beginning": 50 * MS})
    steps = [Step("dependence", TASKS, 100 * MS, 60 * MS, 50 * MS, 70 * MS, 1.0, single("in-for-inout", "a0")),
             Step("serial", "the beginning", 60 * MS, 40 * MS, 30 * MS, 50 * MS, 1.0,
                  single("split", "the beginning=4"))]
    lost = losses(run)
    return Output(Diagnosis(run, lost, lost[:1], steps, steps, code_on_one(run, lost)), Names(run, SOURCES))


def words_in(html):
    return re.sub(r"<[^>]+>", "", html)


class Screens(unittest.TestCase):
    def test_the_sentence_the_times_the_change_and_the_plan(self):
        shown = words_in(first_screen(reported()))
        for words in ("image takes 100 ms on 4 threads.", "100 msnow, on 4 threads", "60.0 msafter the first change",
                      "50.0 msat best: all threads busy all the time", "38 % lost: 8 tasks of image.c:9 (tone)",
                      "Where the time of the 4 threads went",
                      "Firstdepend(in: tab[f(0, 1)]) at image.c:9 if only read, or a copy for each 100 ms → "
                      "60.0 ms (−40 %)",
                      "- #pragma omp task depend(in: b[0]) depend(inout: tab[f(0, 1)])",
                      "Then, on top of itparallelise main (image.c:4-6): loop or tasks 60.0 ms → 40.0 ms (−33 %)",
                      "Not known: whether atomics or shared memory slow it: --full."):
            self.assertIn(words, shown)

    def test_the_gain_of_a_kind_without_which_code_is_cheaper_too_is_no_bound(self):
        run, lost = found(), [Loss("memory", TASKS, 100 * MS)]
        steps = [Step("memory", TASKS, 100 * MS, 75 * MS, 75 * MS, 90 * MS)]
        shown = words_in(first_screen(Output(Diagnosis(run, lost, lost, steps, steps), Names(run, SOURCES))))
        for words in ("75.0 msafter the first change, estimated", "100 ms → about 75.0 ms (−25 %)",
                      "0 nsat best, estimated: all threads busy"):
            self.assertIn(words, shown)

    def test_the_bar_is_the_whole(self):
        shares = parts(reported())
        self.assertAlmostEqual(sum(share for _, share, _ in shares), 1, delta=0.005)
        self.assertEqual(shares[1][0], "dependences: image.c:9")

    def test_words_without_room_stand_below_the_bar(self):
        self.assertTrue(has_room("in code 40 %", 0.4))
        self.assertFalse(has_room("waiting for locks: words.cpp:9 9 %", 0.09))
        self.assertFalse(has_room("communication", 0.1))

    def test_warnings_are_linked(self):
        self.assertIn('<a href="#numbers">2 warnings</a>', first_screen(reported(), 2))

    def test_without_a_change(self):
        run = found(threads=1, asked=1)
        self.assertIn("record on more", words_in(first_screen(Output(diagnose(run), Names(run, None)))))
        self.assertTrue(first_screen(Output(Diagnosis(run, [Loss("lock", "", 9)]), Names(run, None))))


if __name__ == "__main__":
    unittest.main()
