"""Judging, of answers that are given here in spanprof's place."""
import unittest

from spanprof.conformance.judge.verdicts import Judge, Missing, Record, Refused, Verdict, find_spanprof
from spanprof.conformance.run.launch import Log

RUN = "segments 4\nedges 4\ndigest 704969\npreds 0\npreds 1 0\npreds 2 0\npreds 3 1 2\n"
LINES = "preds 0\npreds 1 0\npreds 2 0\npreds 3 1 2\n"
RECORD = Record([[], [0], [0], [1, 2]], "704969", LINES)
WHOLE = (0, "events 8\nfinished 4\n" + LINES)


class Answers(Judge):
    """Gives one answer to all questions, and keeps them."""

    def __init__(self, answer):
        super().__init__("none")
        self.answer, self.asked = answer, []

    def ask(self, words, text):
        self.asked.append((words, text))
        return self.answer


def verdict(answer, end="done", detail="704969", events=("start 0 0", "finish 0 0")):
    return Answers(answer).verdict("omptasks 1\n", RECORD, Log(0, "plain", list(events), end, detail))


class Judging(unittest.TestCase):
    def test_record(self):
        judge = Answers((0, RUN))
        self.assertEqual(judge.record("omptasks 1\n"), RECORD)
        self.assertEqual(RECORD.segments, 4)
        self.assertEqual(judge.asked, [(["run", "--workers", "1"], "omptasks 1\n")])

    def test_refused_program(self):
        with self.assertRaisesRegex(Refused, "line 1: BadHeader"):
            Answers((1, "error: line 1: BadHeader\n")).record("x")

    def test_document(self):
        judge = Answers(WHOLE)
        judge.verdict("omptasks 1\n", RECORD, Log(0, "plain", ["start 0 0", "finish 0 0"], "done", "704969"))
        self.assertEqual(judge.asked, [(["replay"], "omptasks 1\n---\nstart 0 0\nfinish 0 0\n")])

    def test_accepted(self):
        self.assertTrue(verdict(WHOLE).accepted)
        self.assertTrue(verdict(WHOLE, detail="").accepted)

    def test_refused(self):
        found = verdict((1, "error: event 1: NotReady 0\n"))
        self.assertEqual((found.kind, found.detail), ("refused", "event 1: NotReady 0"))

    def test_a_refused_event_comes_before_how_the_run_ended(self):
        self.assertEqual(verdict((1, "error: event 1: NotReady 0\n"), end="hung").kind, "refused")

    def test_a_refused_event_comes_before_too_many(self):
        events = ("start 0 0", "overflow")
        self.assertEqual(verdict((1, "error: event 0: NotReady 0\n"), events=events).detail, "event 0: NotReady 0")
        self.assertEqual(verdict(WHOLE, events=events).kind, "refused")

    def test_incomplete(self):
        found = verdict((0, "events 4\nfinished 2\npreds 0\n"))
        self.assertEqual((found.kind, found.detail), ("incomplete", "finished 2 of 4 segments"))

    def test_another_record(self):
        self.assertEqual(verdict((0, "events 8\nfinished 4\npreds 0\n")).kind, "refused")

    def test_values(self):
        self.assertEqual(verdict(WHOLE, detail="1").kind, "values")
        log = Log(0, "plain", [], "done", "1", value="3 26 31")
        self.assertEqual(Answers(WHOLE).verdict("", RECORD, log).detail,
                         "segment 3 computed 26, and from what segments 1, 2 left 31 is right")

    def test_what_the_program_saw_comes_before_all_that_follows_from_it(self):
        log = Log(0, "plain", ["start 0 0"], "done", wrong="iterations of a taskloop: 12 ran, of 1..11")
        found = Answers((1, "error: event 1: NotReady 0\n")).verdict("", RECORD, log)
        self.assertEqual(found, Verdict("values", log.wrong))

    def test_hung_and_crashed(self):
        self.assertEqual(verdict(WHOLE, end="hung", detail="").kind, "hung")
        self.assertEqual(verdict((0, "events 0\nfinished 0\npreds 0\n"), end="crashed", detail="signal 6").detail,
                         "signal 6")

    def unordered(self, events, detail="704969", end="done"):
        judge = Answers((1, "error: nobody asks\n"))
        found = judge.verdict("omptasks 1\n", RECORD, Log(0, "plain", events, end, detail, unlogged=True))
        self.assertEqual(judge.asked, [])
        return found

    def test_runs_without_an_order(self):
        whole = [f"{what} 0 {s}" for s in range(4) for what in ("start", "finish")]
        self.assertTrue(self.unordered(whole).accepted)
        self.assertEqual(self.unordered(whole, "1").kind, "values")
        self.assertEqual(self.unordered(whole[:-1]).detail, "finished 3 of 4 segments")
        self.assertEqual(self.unordered([*whole, "start 0 2"]).detail, "segment 2 began 2 times")
        self.assertEqual(self.unordered(whole[:3], "asleep", "hung"), Verdict("hung", "asleep"))
        self.assertEqual(self.unordered([*whole, "start 0 2"], "busy", "hung").kind, "refused")


class Finding(unittest.TestCase):
    def test_where_the_environment_says(self):
        self.assertEqual(find_spanprof({"SPANPROF": "/bin/sh"}), "/bin/sh")

    def test_what_is_named_has_to_be_there(self):
        with self.assertRaisesRegex(Missing, "no program /nowhere/spanprof"):
            find_spanprof({"SPANPROF": "/nowhere/spanprof"})


if __name__ == "__main__":
    unittest.main()
