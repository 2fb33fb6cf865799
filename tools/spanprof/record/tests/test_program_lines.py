"""What the summary tells of the program's time."""
import unittest

from spanprof.record.summary import program_line, summary
from spanprof.record.tests.made_up import Answers
from spanprof.recording import Program, Region


def region(number, text, begin, end, code, place):
    return Region(number, text, begin, end, 4, 8, 0, code, 0, place)


STEPS = Program(1000, [region(1, 1, 0, 100, 90, "steps.c:5"), region(2, 2, 200, 500, 900, "steps.c:5"),
                       region(3, 3, 500, 650, 300, "steps.c:5"), region(4, 4, 700, 900, 800, "last.c:9")])


class Lines(unittest.TestCase):
    def test_where_the_time_went(self):
        self.assertEqual(program_line(STEPS), "1.00 us: 55.0 % in the region at steps.c:5, 3 times, the median 150 ns, "
                                              "the longest 300 ns; 25.0 % outside of regions; "
                                              "20.0 % in the region at last.c:9 (measured)")

    def test_regions_inside_others(self):
        inner = region(2, 2, 20, 60, 70, "inner.c:7")._replace(inside=1)
        self.assertEqual(program_line(Program(100, [region(1, 1, 0, 80, 9, "outer.c:5"), inner])),
                         "100 ns: 80.0 % in the region at outer.c:5; 20.0 % outside of regions; inside others the "
                         "region at inner.c:7 (measured)")

    def test_regions_of_several_threads_at_once(self):
        alike = Program(100, [region(1, 1, 0, 60, 9, "pool.c:5"), region(2, 2, 20, 80, 9, "pool.c:5")])
        self.assertEqual(program_line(alike), "100 ns: 80.0 % in the region at pool.c:5, 2 times, the median 60 ns; "
                                              "20.0 % outside of regions (measured)")
        others = Program(100, [region(1, 1, 0, 60, 9, "pool.c:5"), region(2, 2, 20, 80, 9, "other.c:7")])
        self.assertEqual(program_line(others), "100 ns: 60.0 % in the region at pool.c:5; 60.0 % in the region at "
                                               "other.c:7; 20.0 % outside of regions; together more than all of it, "
                                               "since regions of several threads ran at once (measured)")

    def test_it_stands_below_what_leads(self):
        lines = summary(Answers(), program=STEPS)
        self.assertTrue(lines[1].startswith("program       1.00 us: 55.0 % in the region at steps.c:5"))
        self.assertFalse(any(line.startswith("program") for line in summary(Answers(), program=Program(9, []))))


if __name__ == "__main__":
    unittest.main()
