"""What is remarked at the head of a text, in words."""
import json
import os
import re
import unittest

from spanprof.head import Head, moved
from spanprof.remarks import UNFINISHED, WORDS, in_json, in_words, read_remark, remark_of

RECORDER = os.path.join(os.path.dirname(os.path.abspath(__file__)), "../../openmp_recorder/converter/remarks.cpp")


class Remarks(unittest.TestCase):
    def test_each_name_of_the_converter_has_words(self):
        with open(RECORDER, encoding="utf-8") as file:
            names = re.findall(r'\{Remark::\w+, "([^"]+)"', file.read())
        self.assertEqual(sorted(names), sorted(WORDS))
        self.assertLessEqual(set(UNFINISHED), set(names))

    def test_what_is_seen_where_and_what_it_moves(self):
        for reported, words in (
                ({"remark": "detach", "times": 1, "at": "a.c:3", "span": "low"},
                 "detach, written as complete where the code ends, 1 time at a.c:3: span too low"),
                ({"remark": "mutexinoutset", "times": 2, "first": "a.c:3", "span": "low"},
                 "mutexinoutset, 2 times, first at a.c:3: span too low"),
                ({"remark": "region in a task", "times": 2, "work": "low", "span": "high"},
                 "parallel region inside a task, whose time counts there, 2 times: work too low, span too high"),
                ({"remark": "records full", "work": "low", "span": "low"},
                 "the records were full inside the region: work and span too low"),
                ({"remark": "rounded up", "work": "high", "span": "either"},
                 "rounding to whole units, more than 2 % of the work: work too high, span too low or too high"),
                ({"remark": "of a later version"}, "of a later version")):
            self.assertEqual(remark_of(reported), words)

    def test_one_with_words_of_its_own(self):
        self.assertEqual(read_remark(in_json("changed text", "one wait dropped", work="either", span="either")),
                         "one wait dropped: work and span too low or too high")
        self.assertEqual(read_remark(in_json("median", "a median", "of no single run")), "a median: of no single run")

    def test_which_numbers_are_moved(self):
        def ways(*reported):
            head = Head(remarks=[read_remark(one) for one in reported])
            return moved(head, "work"), moved(head, "span")
        self.assertEqual(ways(), (set(), set()))
        self.assertEqual(ways('{"remark": "detach", "span": "low"}', '{"remark": "region in a task", "span": "high"}'),
                         (set(), {"low", "high"}))
        self.assertEqual(ways('{"remark": "rounded up", "work": "high", "span": "either"}'),
                         ({"high"}, {"low", "high"}))
        for plain in ("in words", "{in words", '{"a": 1}', '{"remark": "detach", "span": "loww"}'):
            self.assertEqual(ways(plain), ({"low", "high"}, {"low", "high"}), plain)

    def test_the_lines_of_a_head(self):
        head = "# elapsed: 3\n# remark: %s\n# remark: plain\nomptasks 1\n" % json.dumps({"remark": "target"})
        self.assertEqual(in_words(head), "# elapsed: 3\n# remark: target task, left out\n# remark: plain\nomptasks 1\n")


if __name__ == "__main__":
    unittest.main()
