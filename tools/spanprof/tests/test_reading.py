"""Heads and segments of texts, and where spanprof is looked for."""
import os
import unittest
from copy import deepcopy
from unittest import mock

from spanprof import client, folders
from spanprof.command import Fault
from spanprof.head import OLDER, UNREAD, Head, read_head, warning_lines, with_function
from spanprof.program_text import has_loops
from spanprof.tests.columns import segments_of

TEXT = """\
# recorded: {"program": "sort", "date": "2026-11-24T00:31:07Z", "threads": 4, "clock": "cpu", "unit": "250 ns"}
# region: {"at": "sort.c:48", "number": 2, "of": 5}
# elapsed: 900
# outside regions: 20
# in other regions: 30
# in parts without tasks: 4
# in tasks: 3000
# lock: {"kind": "critical", "at": "sort.c:9", "times": 32, "inside": 77, "waiting": 5}
# remark: {"remark": "all memory", "times": 12, "at": "sort.c:40", "span": "low"}
omptasks 1
# remark: not of the head
work 1
"""

OF_THE_PROGRAM = """\
# covers: {"text": 931, "program": 1000}
# not covered: {"outside regions": 50, "in other regions": 19, "of this region": 0}
# divided: {"what": "loops", "threads": 4, "times": 120, "at": "spmd.c:6"}
# divided: {"what": "code", "threads": 4, "parts": 480, "beside": 715}
# clock reading: 217
# clocks differ: {"affected": 424000, "work": 424576, "by": 384500, "times": 85}
# taken off: {"affected": 9000, "work": 424576, "by": 400, "times": 3}
# slept: {"affected": 300, "work": 424576, "by": 200, "times": 2}
# preempted: [[7, 384000], [2, 500]]
# untimed: 77
# most held lock: 64482
omptasks 1
"""

TASKS = """\
omptasks 1
work 5
task depend(in: x) {  # a.c:2
  work 3
}
work 2
taskgroup {  # a.c:5
  task { work 1 }
}
taskwait
work 1
"""


class Heads(unittest.TestCase):
    def test_each_line(self):
        head = read_head(TEXT)
        self.assertEqual((head.program, head.threads, head.clock, head.unit), ("sort", 4, "cpu", "250 ns"))
        self.assertEqual((head.region, head.number, head.elapsed, head.nanoseconds), ("sort.c:48", "2 of 5", 900, 250))
        self.assertEqual(head.division, {"outside regions": 20, "in other regions": 30, "in parts without tasks": 4,
                                         "in tasks": 3000})
        self.assertEqual(warning_lines(TEXT), [
            "warning: dependence on all memory, left out, 12 times at sort.c:40: span too low",
            "lock critical at sort.c:9: 32 times, 19.2 us inside, 1.25 us waiting"])

    def test_what_it_says_of_the_program(self):
        head = read_head(OF_THE_PROGRAM)
        self.assertEqual((head.covered, head.thread_time, head.covers_at_most), (931, 1000, False))
        self.assertEqual(head.not_covered, {"outside regions": 50, "in other regions": 19, "of this region": 0})
        self.assertEqual(head.divided, ["loops, 120 times at spmd.c:6"])
        self.assertEqual((head.beside, head.clock_reading, head.most_held), (715, 217, 64482))
        self.assertEqual(head.clocks_differ, {"affected": 424000, "work": 424576, "by": 384500, "times": 85})
        self.assertEqual((head.slept["by"], head.slept["times"], head.untimed), (200, 2, 77))
        self.assertEqual(head.taken_off["by"], 400)
        self.assertEqual(head.preempted, {7: 384000, 2: 500})

    def test_other_forms_of_what_was_taken_tell_nothing(self):
        for wrong in ("[[1, -2]]", "[[-1, 2]]", "[[1]]", "[1]", "7", "{}", '[["a", 2]]', "[]"):
            self.assertEqual(read_head("# preempted: %s\n" % wrong).preempted, {})

    def test_other_forms(self):
        head = read_head('# covers: {"text": 931, "program": 1000, "at most": true}\n'
                         '# lock: {"others": 7, "times": 1, "inside": 2, "waiting": 3}\n')
        self.assertEqual((head.covered, head.thread_time, head.covers_at_most), (931, 1000, True))
        self.assertEqual(head.locks, ["7 others together: 1 time, 2 inside, 3 waiting"])
        self.assertEqual((head.locks[0].name, head.locks[0].waiting), ("7 others together", 3))
        self.assertEqual(deepcopy(head).locks[0].waiting, 3)

    def test_damaged_lines(self):
        for line in ('elapsed: "x"', "elapsed: -1", "elapsed: true", "untimed: 3.5", 'covers: {"text": 5}',
                     'clocks differ: {"affected": 5, "work": 9, "by": "x", "times": 1}', "in tasks: null",
                     'covers: {"text": 5, "program": 9, "at most": 3}', 'place: {"at": 5, "in": "f"}', "region: []",
                     "place: " + "[" * 100000):
            head = read_head(TEXT.replace("omptasks", "# %s\nomptasks" % line))
            self.assertEqual(head.remarks[1:], ["line of the head that is not read, as it is damaged: " +
                                                line.split(":")[0]])
            self.assertEqual((head.remarks[1].work, head.remarks[1].span), ("either", "either"))
        self.assertEqual(read_head("# covers: every day\nomptasks 1\n").remarks, [])   # somebody's own
        self.assertEqual(read_head("# recorded: sort, 4 threads\n").remarks, [OLDER])
        self.assertEqual(read_head('# recorded: {"program": \n').remarks, [UNREAD + "recorded"])
        odd = read_head('# remark: {"remark": "held lock", "span": "sideways"}\n').remarks
        self.assertEqual((odd[0].work, odd[0].span), ("either", "either"))

    def test_nothing_said_of_the_program(self):
        head = read_head(TEXT)
        self.assertEqual((head.covered, head.thread_time, head.beside, head.most_held, head.runs), (None,) * 5)
        self.assertEqual((head.not_covered, head.divided, head.clocks_differ, head.spread), ({}, [], {}, {}))

    def test_the_whole_program(self):
        head = read_head('# whole program: {"regions": 2, "loops": 1, "pieces": 64, "together below": 1000}\n'
                         '# not covered: {"of the program": 19}\nomptasks 1\n')
        self.assertEqual(head.whole, "2 regions, 1 loop in 64 pieces; a chunk of k turns is k equal pieces, together "
                                     "where they are shorter than 1000 ns")
        self.assertEqual((head.region, head.pieces), ("", 64))
        self.assertEqual(head.not_covered, {"of the program": 19})

    def test_short_chunks_and_sources(self):
        head = read_head('# short chunks: {"at": "a.c:9", "times": 40, "turns": 80}\n'
                         '# short chunks: {"at": "a.c:9", "times": 2, "turns": 4}\n'
                         '# source: {"file": "a.c", "path": "/home/a.c"}\n')
        self.assertEqual((head.chunks, head.sources), ({"a.c:9": [42, 84]}, {"a.c": "/home/a.c"}))

    def test_loops_of_few_turns(self):
        head = read_head('# few turns: {"at": "a.c:9", "turns": 5, "threads": 4}\n')
        self.assertEqual(head.few_turns, {"a.c:9": [5, 4]})

    def test_functions_of_places(self):
        head = read_head('# place: {"at": "sort.c:9", "in": "merge", "inlined": [{"in": "sort", "at": "sort.c:30"}]}\n')
        self.assertEqual(with_function(head, "task at sort.c:9"),
                         "task at sort.c:9 in merge, inlined into sort at sort.c:30")
        self.assertEqual(with_function(head, "task at sort.c:10"), "task at sort.c:10")
        self.assertEqual(with_function(head, "the beginning"), "the beginning")

    def test_functions_of_places_with_callers(self):
        head = read_head('# place: {"at": "b.c:6 called from solve at b.c:10", "in": "spawn"}\n')
        self.assertEqual(with_function(head, "after creating a task at b.c:6 called from solve at b.c:10"),
                         "after creating a task at b.c:6 in spawn, called from solve at b.c:10")
        self.assertEqual(with_function(head, "task at b.c:6"), "task at b.c:6")

    def test_a_region_without_place(self):
        head = read_head('# region: {"number": 1, "of": 1}\nomptasks 1\n')
        self.assertEqual((head.region, head.number), ("", "1 of 1"))

    def test_units(self):
        head = read_head('# recorded: {"clock": "cpu", "unit": "us"}\n')
        self.assertEqual((head.nanoseconds, head.unit_of_costs), (1000, "us of processor time"))

    def test_an_older_version(self):
        head = read_head("# recorded: from sort, threads 4, clock cpu, unit us\n# elapsed: 900\n")
        self.assertEqual(head.remarks, [OLDER])
        self.assertEqual((head.threads, head.is_measured, head.remarks[0].span), (None, False, "either"))

    def test_comments_of_somebodys_own(self):
        head = read_head("# region: the inner one\n# elapsed: 5 s\n# slept: 5\n# covers: []\n# whole program: {}\n")
        self.assertEqual((head, head.remarks), (Head(), []))

    def test_none(self):
        head = read_head("omptasks 1 work 3 # remark: no\n")
        self.assertFalse(head.is_measured or head.remarks)
        self.assertIsNone(head.nanoseconds)


class Segments(unittest.TestCase):
    def test_costs_and_places(self):
        found = segments_of(TASKS)
        self.assertEqual([s.cost for s in found], [5, 3, 2, 1, 0, 0, 1])
        self.assertEqual([s.place() for s in found], [
            "the beginning", "task at a.c:2", "after creating a task at a.c:2", "a task", "after creating a task",
            "after taskgroup at a.c:5", "after a taskwait"])

    def test_which_texts_have_loops(self):
        texts = ("# omptasks 2\nomptasks 1", "omptasks\n02 work 1", "omptasks")
        self.assertEqual([has_loops(text) for text in texts],
                         [False, True, False])


class Finding(unittest.TestCase):
    def program(self, on_the_path=(), **variables):
        """With these variables, and these programs on the PATH, or at these places."""
        with mock.patch.dict(os.environ, {"SPANPROF": "", "SPANPROF_LARGE": "", **variables}), \
                mock.patch("shutil.which", side_effect=lambda name: "/bin/" + name if name in on_the_path else None), \
                mock.patch("os.access", side_effect=lambda path, _: path in on_the_path):
            return client.program()

    def test_the_order(self):
        both, here = ("spanprof", "spanprof_large"), folders.places_of("spanprof_large")[1]
        reference = folders.other_places_of("spanprof_large")[0]
        self.assertEqual(self.program(both, SPANPROF_LARGE="rt run --"), ["rt", "run", "--"])
        self.assertEqual(self.program(both, SPANPROF="small"), ["/bin/spanprof_large"])
        self.assertEqual(self.program((here, reference)), [here])
        self.assertEqual(self.program((reference,)), [reference])
        self.assertEqual(self.program(("spanprof",)), [])

    def test_no_program_is_reported_without_a_traceback(self):
        with mock.patch.dict(os.environ, {"SPANPROF_LARGE": "/no/such/program"}):
            with self.assertRaisesRegex(Fault, "/no/such/program: No such file"):
                client.ask(["span"], "omptasks 1\n")


if __name__ == "__main__":
    unittest.main()
