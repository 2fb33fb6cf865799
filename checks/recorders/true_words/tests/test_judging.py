import unittest

from judging import doubts_of, faults, refuted
from sentences import blocks, read
from truth import SHAPES

BY_NAME = {shape.name: shape for shape in SHAPES}
GOOD = """\
shapes.tasks, region at shapes.c:45, 4 threads, costs in us of processor time
covers        99.8 % of the program's thread-time in code; not covered: 140 outside regions (measured)
tasks         16, in 34 segments (recorded)
runs          1; --runs 9 measures the variation
work          80,090 us: code on 4 threads, added up (measured)
span          5,030 us: lower bound of the run time on any number of threads (proved of the recorded text)
parallelism   15.93: work / span, the greatest speedup on any number of threads (proved of the recorded text)
elapsed       20,900 us on 4 threads: 3.83 of them busy in this code on average (measured)
threads       speedup at most 2: 2.00, 4: 4.00, 8: 8.00, 16: 15.93 (proved of the recorded text)
              speedup at least 2: 1.88, 4: 3.37, 8: 5.55, 16: 8.25 for a greedy schedule; tied tasks can do worse (proved of the recorded text)
warnings      none
"""
OLD_LOOP = """\
shapes.tasks, region at shapes.c:66, 2 threads, costs in us of processor time
tasks         1, in 8 segments (recorded); its run was legal (proved)
work          66,020 us: the time of one thread (measured)
span          34,010 us: no run ends sooner (proved, of measured costs)
parallelism   1.95: work / span; no number of threads gives more (proved)
elapsed       34,500 us on 2 threads: it was 1.91 times as fast as one (measured)
threads       2: 1.48 to 1.95, 4: 1.67 to 1.95, 8: 1.80 to 1.95, 16: 1.87 to 1.95 times as fast as one (proved)
warnings      none
"""
WHOLE = """\
shapes.spanprof, the whole program, 4 threads, costs in us of processor time
covers        99.9 % of the program's thread-time in code; not covered: 3 us of the program (measured)
work          205 ms: code on 4 threads, added up (measured)
span          130 ms: lower bound of the run time on any number of threads (proved of the recorded text)
parallelism   1.58: work / span, the greatest speedup on any number of threads (proved of the recorded text)
warnings      none
"""


def judged(text, shape, threads=4):
    return faults(read(text.splitlines()), BY_NAME[shape], threads)


class Doubts(unittest.TestCase):
    def test_what_a_remark_moves(self):
        remark = "preempted in code, counted as wall time, 9 times at shapes.c:45: "
        reported = [doubts_of(read(GOOD.replace("warnings      none", "warnings      " + words).splitlines()))
                    for words in ("none", remark + "work and span too high", "a lock, 4 times: span too low")]
        self.assertEqual(reported, ["", "work and span", "span"])


class Readings(unittest.TestCase):
    def test_what_is_claimed(self):
        summary = read(GOOD.splitlines())
        self.assertEqual((summary.work, summary.share, summary.busy), (80.09, 0.998, 3.83))
        self.assertEqual((summary.end_on_any, summary.gain_on_any, summary.lock_gain), (5.03, 15.93, None))
        self.assertEqual(summary.at_most, {2: 2.0, 4: 4.0, 8: 8.0, 16: 15.93})
        self.assertEqual(summary.at_least, {2: 1.88, 4: 3.37, 8: 5.55, 16: 8.25})

    def test_sentences_of_another_time(self):
        summary = read(OLD_LOOP.replace("no run ends", "it ends no").splitlines())
        self.assertEqual((summary.gain_on_any, summary.at_most[16], summary.at_least[4]), (1.95, 1.95, 1.67))

    def test_what_is_not_claimed(self):
        text = GOOD.replace("lower bound of the run time on any number of threads (proved of the recorded text)",
                            "a longest chain of the recorded text; it was recorded on one thread")
        self.assertIsNone(read(text.splitlines()).end_on_any)

    def test_what_the_line_itself_takes_back(self):
        text = GOOD.replace("16: 15.93 (proved of the recorded text)",
                            "16: 15.93 (of the recorded text; the program's may be more (warnings))")
        self.assertEqual(read(text.splitlines()).at_most, {})

    def test_a_remark_and_a_lock(self):
        text = GOOD.replace("warnings      none", "warnings      clocks: work too high\n"
                                                  "              folded: span too low")
        text += "locks         24,000 us inside the most held one: speedup at most 1.34 (measured)\n"
        summary = read(text.splitlines())
        self.assertEqual((summary.is_work_doubted, summary.is_span_doubted, summary.lock_gain), (True, True, 1.34))


class Judgements(unittest.TestCase):
    def test_nothing_against_what_is_so(self):
        self.assertEqual(judged(GOOD, "independent"), [])

    def test_a_loop_that_was_taken_for_the_whole(self):
        found = "\n".join(judged(OLD_LOOP, "loop", 2))
        for words in ("no word of how much", "no number of threads gains more than 1.95, and 16.50 is true",
                      "4 threads gain 1.95 at most, and 3.67 is true", "what is proved is not said: parallelism",
                      "a comparison with a run that was not made: elapsed"):
            self.assertIn(words, found)

    def test_a_chain_that_was_taken_for_less(self):
        self.assertIn("4 threads gain 3.37 at least, and 1.02 is the most", judged(GOOD, "doacross"))

    def test_a_span_that_a_run_beats(self):
        text = GOOD.replace("5,030 us", "9,030 us")
        self.assertEqual(judged(text, "independent"), ["no number of threads ends before 9.0, and 5.0 is true"])

    def test_work_that_is_left_out_without_a_word(self):
        text = GOOD.replace("80,090 us", "8,090 us").replace("99.8 %", "99.9 %")
        self.assertIn("work 8.1 of a text that is said to have 0.999 of the program, and the region has 80.0",
                      judged(text, "independent"))

    def test_a_part_that_is_not_called_one(self):
        text = GOOD.replace("99.8 %", "40.1 %")
        self.assertIn("the first line does not say that the text has 0.401 of the program", judged(text, "serial"))
        named = text.replace("shapes.tasks,", "shapes.tasks, only 40.1 % of the program's thread-time,")
        self.assertEqual(judged(named, "serial"), [])

    def test_nothing_claimed(self):
        text = GOOD.replace("the greatest speedup on any number of threads", "of the text")
        self.assertEqual(judged(text, "independent"), ["nothing is claimed of any number of threads"])
        self.assertNotIn("nothing is claimed of any number of threads", judged(text, "steps"))

    def test_more_threads_busy_than_there_are(self):
        self.assertEqual(judged(GOOD.replace("3.83 of", "4.83 of"), "independent"), ["4.83 threads were busy, of 4"])


class Wholes(unittest.TestCase):
    def reported(self, text):
        return blocks(("a line of the program\n" + text).splitlines())

    def test_without_what_stands_before(self):
        found = self.reported(WHOLE)
        self.assertEqual(["%.3f" % read(lines).share for lines in found], ["0.999"])
        self.assertEqual(self.reported("shapes: nothing\n"), [])

    def test_against_the_program(self):
        whole = BY_NAME["serial"].whole(5)
        self.assertEqual(faults(read(self.reported(WHOLE)[0]), whole, 4), [])
        self.assertEqual(faults(read(self.reported(WHOLE.replace("130 ms", "150 ms"))[0]), whole, 4),
                         ["no number of threads ends before 150.0, and 130.0 is true"])


class Refutations(unittest.TestCase):
    def test_by_a_run(self):
        summary, loop = read(OLD_LOOP.splitlines()), BY_NAME["loop"]
        self.assertEqual(refuted(summary, loop, 4, 18.2), [
            "a run on 4 threads took 18.2, and 34.0 is the end that none is before"] + [
            "a run on 4 threads gained 3.63, and 1.95 is the most"] * 2)
        self.assertEqual(refuted(summary, loop, 4, 60.0), [])

    def test_an_end_that_a_run_beats(self):
        summary = read(GOOD.replace("5,030 us", "9,030 us").splitlines())
        self.assertIn("a run on 16 threads took 6.0, and 9.0 is the end that none is before",
                      refuted(summary, BY_NAME["independent"], 16, 6.0))


class Truth(unittest.TestCase):
    def test_by_hand(self):
        rows = {"chain": (40, 40, 40), "independent": (80, 20, 5), "fork_join": (64, 16, 16), "loop": (66, 18, 4),
                "lock": (32, 25, 25), "doacross": (65, 64, 64), "serial": (80, 20, 5)}
        for name, (one, four, many) in rows.items():
            least = BY_NAME[name].least
            self.assertEqual((least(1), least(4), least(1024)), (one, four, many), name)
        self.assertAlmostEqual(BY_NAME["steps"].least(4), 33)
        self.assertEqual(BY_NAME["serial"].share, 0.4)
        whole = BY_NAME["two_regions"].whole(6)
        self.assertEqual((whole.work, whole.least(4), whole.share), (190, 46 + 16 + 20, 1))


if __name__ == "__main__":
    unittest.main()
