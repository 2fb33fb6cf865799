import glob
import os
import unittest
from collections import Counter

from spanprof import folders
from spanprof.program_text import LONGEST_KNOWN, Marks, Statement, as_text, is_programs, statements, where
from spanprof.tests.columns import segments_of
from spanprof.whatif.tests.made_up import ROW, SORT, changed, read

LOOP = "taskgroup {  # the loop at a.c:5\n task {  # turns of the loop at a.c:5\n  work 1\n }\n work 2\n}\nwork 3\n"
SECTIONS = "taskgroup {  # the sections%(at)s\n task {  # a section%(at)s\n  work 1\n }\n work 2\n}\nwork 3\n"
RECORDED = os.path.join(folders.TOP, "examples", "openmp", "recorded")


class Reading(unittest.TestCase):
    def test_places(self):
        self.assertEqual([one.name for one in read(SORT) if one.kind == "work"], [
            "the beginning", "task at sort.c:8", "after creating a task at sort.c:8", "task at sort.c:8",
            "task at sort.c:9", "after taskwait at sort.c:10", "after creating a task at sort.c:8",
            "after taskgroup at sort.c:7"])

    def test_constructs(self):
        self.assertEqual([(one.kind, one.name or one.of) for one in read(SORT) if one.kind != "work"][:4], [
            ("taskgroup", "taskgroup at sort.c:7"), ("task", "task at sort.c:8"), ("end", "task"),
            ("task", "task at sort.c:8")])

    def test_code_of_a_regions_threads(self):
        """A group of such tasks stands for a barrier, and not for a `taskgroup` of the program."""
        phase = "taskgroup {%s\n task {  # one of the region's threads\n  work 1\n }\n work 2\n}\n"
        last = "work 4\ntaskgroup {\n}\n"
        found = list(read("omptasks 1\n" + phase % "" + "work 3\n" + phase % "  # a.c:5" + last))
        self.assertEqual([one.name for one in found if one.kind == "work"], [
            "code of one of the region's threads", "starting one of the region's threads",
            "after the barrier of the region", "code of one of the region's threads",
            "starting one of the region's threads", "after the barrier of the region at a.c:5"])
        self.assertEqual([one.name for one in found if one.kind == "taskgroup"], [
            "the barrier of the region", "the barrier of the region at a.c:5", "a taskgroup"])
        again = list(read(as_text(found)))
        self.assertEqual(list(again), found)

    def test_turns_and_sections(self):
        """Tasks that stand for them, and their groups, are none of the program."""
        found = list(read("omptasks 1\n" + LOOP + SECTIONS % {"at": ""} + SECTIONS % {"at": " at a.c:9"}))
        self.assertEqual([one.name for one in found if one.kind == "work"], [
            "turns of the loop at a.c:5", "between turns of the loop at a.c:5", "after the loop at a.c:5",
            "a section", "between sections", "after the sections",
            "a section at a.c:9", "between sections at a.c:9", "after the sections at a.c:9"])
        self.assertEqual([one.name for one in found if one.kind in ("task", "taskgroup")], [
            "the loop at a.c:5", "turns of the loop at a.c:5", "the sections", "a section",
            "the sections at a.c:9", "a section at a.c:9"])
        self.assertEqual(where(found[0].name), "a.c:5")
        self.assertEqual(list(read(as_text(found))), found)

    def test_whose_a_task_is(self):
        for comment in ("", "a.c:5", "the loop at a.c:5", "a sectional view", "turns of the loopback at b.c:3"):
            self.assertTrue(is_programs(comment), comment)
        for comment in ("turns of the loop", "a section at a.c:9",
                        "one of the region's threads"):
            self.assertFalse(is_programs(comment), comment)

    def test_comments_of_ones_own(self):
        self.assertEqual([one.name for one in read("omptasks 1 taskwait # the loop\nwork 1 task { # the loop\n}")
                          if one.kind != "end"], ["taskwait at the loop", "after taskwait at the loop",
                                                  "task at the loop"])

    def test_without_comments(self):
        names = [one.name for one in read("omptasks 1 task { work 1 } taskwait work 2 taskgroup { } work 3")]
        self.assertEqual(names, ["a task", "a task", "", "a taskwait", "after a taskwait", "a taskgroup", "",
                                 "after a taskgroup"])

    def test_clauses(self):
        task = read("omptasks 1\ntask depend(in: a, in) if(00) depend(out: depend) { # x\n}\n")[0]
        self.assertTrue(task.is_undeferred)
        self.assertEqual(task.items, (("in", "a"), ("in", "in"), ("out", "depend")))
        self.assertFalse(read("omptasks 1 task if(1) depend(in: if0) { }")[0].is_undeferred)

    def test_locations_of_version_2(self):
        task = read("omptasks 2\ntask depend(inout: x[-1], x[3], x) {\n}\n")[0]
        self.assertEqual([name for _, name in task.items], ["x[-1]", "x[3]", "x"])

    def test_what_follows_the_divider_is_left_out(self):
        self.assertEqual(read("omptasks 1\nwork 2\n---\nstart 0 0\n"), [Statement("work", "the beginning", 2)])

    def test_words_on_lines_of_their_own(self):
        self.assertEqual([one.cost for one in read("omptasks\n1\nwork # 3\n\t12\rwork 5")], [12, 5])

    def test_marks(self):
        task = ("task", "if(0)depend(in:a,b)", "a.c:3")
        for layout in ("task if(0) depend(in: a, b) { # a.c:3\n} taskwait\n",
                       "task if(0)\n depend(in: a,\nb){#a.c:3\n\t}\n taskwait\n"):
            found = list(Marks(("omptasks 1\n" + 2 * layout).splitlines(True)))
            self.assertEqual([one for one in found if one[0] != "}"], 2 * [task, ("taskwait", "", "")])
            self.assertEqual(len(found), 6)
        self.assertEqual(list(Marks(["omptasks 1 work 2 taskwait work # 3\n", "4 # 5"])),
                         [("work", "2", ""), ("taskwait", "", "3"), ("work", "4", "")])

    def test_the_same_line_between_the_words_of_a_statement(self):
        lines = ["omptasks 1\n", "taskwait\n", "task depend(in: \n", "taskwait\n", ") {\n", "}\n", "taskwait\n"]
        self.assertEqual([word for word, _, _ in Marks(lines)], ["taskwait", "task", "}", "taskwait"])

    def test_long_lines(self):
        line = "work 1 task { } " * LONGEST_KNOWN
        self.assertEqual(len(list(Marks(["omptasks 1 " + line, line]))), 6 * LONGEST_KNOWN)

    def test_costs_by_place_are_those_of_the_reports(self):
        paths = glob.glob(os.path.join(RECORDED, "*.tasks"))
        self.assertGreater(len(paths), 5)
        for path in paths:
            with open(path, encoding="utf-8") as file:
                text = file.read()
            costs, expected = Counter(), Counter()
            for one in read(text):
                costs[one.name] += one.cost
            for segment in segments_of(text):
                expected[segment.place()] += segment.cost
            self.assertEqual(+costs, +expected, path)


class Writing(unittest.TestCase):
    def test_a_text_stays(self):
        for text in (SORT, ROW):
            own = text[text.index("omptasks"):]
            self.assertEqual(as_text(statements(text.splitlines(True))), own)

    def test_clauses(self):
        line = "task if(0) depend(in: a, b) depend(out: c) depend(in: d) {"
        self.assertEqual(changed("omptasks 1\n%s\n}\n" % line), line + " }")

    def test_neighbouring_work_is_one(self):
        pieces = [Statement("work", "here", 2), Statement("work", "there", 3), Statement("taskwait"),
                  Statement("work", "here", 0)]
        self.assertEqual(as_text(pieces), "omptasks 1\nwork 5\ntaskwait\n")
        self.assertEqual(as_text(pieces[:2]), "omptasks 1\nwork 5\n")


if __name__ == "__main__":
    unittest.main()
