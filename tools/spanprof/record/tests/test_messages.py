import unittest

from spanprof.remarks import LIMITS, STOPPED, Messages, sentence_of

TEXT = {"message": "text", "file": "/tmp/mine.tasks", "tasks": 3, "segments": 7, "work": 10, "unit": "ns"}
REMARK = {"message": "remark", "name": "/tmp/mine", "remark": {"remark": "all memory", "times": 1, "span": "low"}}
IN_WORDS = "dependence on all memory, left out, 1 time: span too low"
LARGE = {"message": "too large", "file": "/tmp/mine.3.tasks", "what": "items", "has": 40, "takes": 32}


class Words(unittest.TestCase):
    def test_texts(self):
        self.assertEqual(sentence_of(dict(TEXT, times="/tmp/mine.timed")),
                         "/tmp/mine.tasks and /tmp/mine.timed: 3 tasks, 7 segments, work 10 ns")
        self.assertEqual(sentence_of(dict(TEXT, **{"no times": "unfinished"})),
                         "/tmp/mine.tasks; no times, since tasks did not run to their ends: 3 tasks, 7 segments, "
                         "work 10 ns")

    def test_limits(self):
        self.assertEqual(sentence_of(LARGE), "/tmp/mine.3.tasks is not written: it has 40 depend items of one "
                         "task, and 32 is the most; give each task fewer depend items")
        for what in ("piece", "work"):
            self.assertIn("larger --unit", sentence_of(dict(LARGE, what=what)))
        for what in LIMITS:
            self.assertIn(LIMITS[what], sentence_of(dict(LARGE, what=what)))

    def test_where_a_log_ends(self):
        for inside, where in ((True, "inside a region"), (False, "outside of regions")):
            self.assertIn("ends 1.5 ms after recording began, " + where,
                          sentence_of({"message": "killed", "recorded": 1500000, "inside": inside}))
        for why in STOPPED:
            self.assertIn(STOPPED[why], sentence_of({"message": "stopped", "why": why, "recorded": 0}))
        self.assertIn("still runs", sentence_of({"message": "running", "recorded": 5}))

    def test_the_others(self):
        for one, words in (({"message": "outside", "times": 1, "at": "a.c:3"}, "1 time at a.c:3"),
                           ({"message": "no tasks", "inside": True}, "and the program ended inside a region"),
                           ({"message": "unwritten", "file": "x.tasks"}, "x.tasks cannot be written"),
                           ({"message": "unwritten", "file": "x.tasks", "why": "No space left on device"},
                            "x.tasks cannot be written: No space left on device"),
                           ({"message": "fault", "log": "x.log", "what": "no log"},
                            "x.log cannot be converted: no log")):
            self.assertIn(words, sentence_of(one))


class News(unittest.TestCase):
    def test_only_what_the_summary_does_not_show(self):
        second = dict(TEXT, file="/tmp/mine.2.tasks")
        said = Messages(True, [REMARK, TEXT, second, LARGE])
        large = ("mine.3.tasks is not written: it has 40 depend items of one task, and 32 is the most; give each task "
                 "fewer depend items")
        self.assertEqual(said.news("/tmp/mine", [TEXT["file"]], {IN_WORDS}),
                         ["mine.2.tasks: 3 tasks, 7 segments, work 10 ns", large])
        self.assertEqual(said.news("/tmp/mine", [TEXT["file"], second["file"]]),
                         ["mine: " + IN_WORDS, large])

    def test_what_two_conversions_tell_is_reported_once(self):
        killed = {"message": "killed", "recorded": 1500000, "inside": True}
        self.assertEqual(len(Messages(True, [killed, LARGE, killed]).news("/tmp/mine")), 2)

    def test_folders_that_have_other_names_in_the_end(self):
        said = Messages(True, [dict(TEXT, file="/p/m.spanprof/program.tasks")]).moved({"/p/m.spanprof": "/m.spanprof"})
        self.assertEqual(said.things, [dict(TEXT, file="/m.spanprof/program.tasks")])

    def test_a_text_that_is_one_of_several_runs(self):
        self.assertEqual(len(Messages(True, [REMARK, TEXT]).news("", [TEXT["file"]])), 1)


if __name__ == "__main__":
    unittest.main()
