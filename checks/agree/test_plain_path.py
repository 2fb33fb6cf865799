import sys
import unittest
from pathlib import Path

sys.path.insert(0, str(Path(__file__).resolve().parent / "large_recordings"))

import whole_graph
from plain_path import Wrong, check_rows, places_of, rows_of, sums_by_place

TEXT = """\
omptasks 1
work 2 # not its place
task depend(in: a,
  task) {  # a.c:3
work 5
taskgroup {
  task { } } # a.c:9
}
taskwait # a.c:7
"""
TOLD = "segment,task,cost,start,slack,chain\n0,0,2,0,0,1\n1,1,5,2,0,1\n2,2,0,7,0,1\n3,1,0,7,0,0\n4,1,0,7,0,1\n" \
    "5,0,0,2,5,0\n6,0,0,7,0,1\n"


class Plain(unittest.TestCase):
    def test_places(self):
        self.assertEqual(places_of(TEXT), [
            "the beginning", "task at a.c:3", "task at a.c:9", "after creating a task at a.c:9", "after a taskgroup",
            "after creating a task at a.c:3", "after taskwait at a.c:7"])
        self.assertEqual(places_of("omptasks 1 taskwait task { }"), ["the beginning", "after a taskwait", "a task",
                                                                     "after creating a task"])

    def test_code_of_a_regions_threads(self):
        part = "taskgroup {%s\n task {  # one of the region's threads\n }\n}\n"
        self.assertEqual(places_of("omptasks 1\n" + part % "" + part % "  # a.c:5")[1:], [
            "code of one of the region's threads", "starting one of the region's threads",
            "after the barrier of the region", "code of one of the region's threads",
            "starting one of the region's threads", "after the barrier of the region at a.c:5"])

    def test_turns_and_sections(self):
        loop = "taskgroup {  # the loop at a.c:5\n task {  # turns of the loop at a.c:5\n }\n}\n"
        section = "taskgroup {  # the sections\n task {  # a section\n }\n}\n"
        self.assertEqual(places_of("omptasks 1\n" + loop + section)[1:], [
            "turns of the loop at a.c:5", "between turns of the loop at a.c:5", "after the loop at a.c:5",
            "a section", "between sections", "after the sections"])

    def test_sums(self):
        costs, _, chain = rows_of(TOLD)
        self.assertEqual(sums_by_place(TEXT, costs, chain)[-2:],
                         [(2, 2, 1, "the beginning"), (5, 5, 1, "task at a.c:3")])
        with self.assertRaisesRegex(Wrong, "6 rows of 7 segments"):
            sums_by_place(TEXT, costs[:-1], chain)

    def refused(self, why, old, new):
        with self.assertRaisesRegex(Wrong, why):
            check_rows(whole_graph.read(TEXT.splitlines()), *rows_of(TOLD.replace(old, new)))

    def test_rows(self):
        check_rows(whole_graph.read(TEXT.splitlines()), *rows_of(TOLD))
        self.refused("other costs or starts", "1,1,5,2", "1,1,6,2")
        self.refused("other costs or starts", "5,0,0,2", "5,0,0,3")
        self.refused("segment 2 does not follow 0", "1,1,5,2,0,1", "1,1,5,2,0,0")
        short = "0,0,2,0,0,1\n1,1,5,2,0,0\n2,2,0,7,0,0\n3,1,0,7,0,0\n4,1,0,7,0,0\n5,0,0,2,5,1\n6,0,0,7,0,1\n"
        self.refused("the chain costs 2, and the span is 7", TOLD.split("\n", 1)[1], short)
        self.refused("not numbered", "\n2,2", "\n3,2")


if __name__ == "__main__":
    unittest.main()
