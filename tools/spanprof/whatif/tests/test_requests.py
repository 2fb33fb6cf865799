import unittest
from collections import Counter

from spanprof.command import Fault
from spanprof.whatif.output import listing
from spanprof.whatif.requests import Costs, Request, changes, find, survey
from spanprof.whatif.tests.made_up import LOOPS, ROW, SORT, read

SEEN = survey(read(SORT))
COSTS = Costs(2, "")


def made(option, word, seen=SEEN, costs=COSTS):
    return changes([Request(option, word)], seen, costs)[0]


class Places(unittest.TestCase):
    def test_a_name_or_a_part_of_one(self):
        self.assertEqual(find("ab", ["ab", "abc"], "code"), "ab")
        self.assertEqual(find("c", ["ab", "abc"], "code"), "abc")
        self.assertEqual(find("task at a", ["after creating a task at a:3", "task at a:3"], "code"), "task at a:3")

    def test_refusals_name_what_there_is(self):
        for word, reported in (("a", "a: more than one code of this name; say which: ab, abc"),
                               ("abd", "abd: no code of this name; there are: ab, abc"),
                               ("", ": no code of this name; spanprof-whatif --places lists what there is")):
            with self.assertRaisesRegex(Fault, reported):
                find(word, ["ab", "abc"], "code")


class Made(unittest.TestCase):
    def test_each_option(self):
        self.assertEqual(made("factor", "begin=0.5").words(), "0 pieces of code changed: the beginning times 0.5")
        self.assertEqual(made("drop-wait", "after taskwait at sort.c:10").place, "taskwait at sort.c:10")
        self.assertEqual(made("drop-wait", "sort.c:7").place, "taskgroup at sort.c:7")
        self.assertEqual(made("drop-name", "b", survey(read(ROW))).place, "b")
        self.assertEqual(made("drop-depend", "row", survey(read(ROW))).place, "task at row.c:3")
        self.assertEqual(made("rename", "row=b", survey(read(ROW))).words(), "0 depend items renamed: task at row.c:3, "
                         "the name b")
        self.assertEqual(made("rename", "row", survey(read(ROW))).words(), "0 depend items renamed: task at row.c:3")
        self.assertEqual(made("join", "sort.c:9=4").together, 4)
        self.assertEqual(made("grain", "sort.c:9=4").parts_of(9), 3)
        self.assertEqual(made("cutoff", "2").depth, 2)

    def test_a_part_costs_no_less_than_its_creation(self):
        self.assertEqual(made("split", "task at sort.c:9=4").least, 8)
        self.assertEqual(made("split", "task at sort.c:9=4", costs=Costs(0, "")).least, 4)
        self.assertEqual(made("task", "task at sort.c:9").least, 2)

    def test_refusals(self):
        for option, word, reported in (("factor", "begin=x", "--factor x: the factor is not a number"),
                                       ("factor", "begin=-1", "a factor is from 0"),
                                       ("factor", "begin", "--factor begin: expected PLACE=NUMBER"),
                                       ("factor", "x=1", "no piece of code"),
                                       ("split", "begin=1", "--split '1' is not a whole number from 2"),
                                       ("join", "sort.c:9=", "--join '' is not a whole number"),
                                       ("cutoff", "0", "'0' is not a whole number from 1"),
                                       ("drop-depend", "sort", "no task with depend items"),
                                       ("drop-name", "a", "no depend item")):
            with self.assertRaisesRegex(Fault, reported):
                made(option, word)


class Seen(unittest.TestCase):
    def test_counts(self):
        self.assertIn("task at sort.c:8", SEEN.code)
        self.assertNotIn("after creating a task at sort.c:9", SEEN.code)
        self.assertEqual(SEEN.tasks, {"task at sort.c:8": 2, "task at sort.c:9": 1})
        self.assertEqual(SEEN.waits, {"taskgroup at sort.c:7": 1, "taskwait at sort.c:10": 1})
        self.assertEqual(SEEN.depth, 2)
        self.assertEqual(survey(read(ROW)).items, {"a": 2, "b": 2})
        self.assertEqual(+survey(read(ROW)).ordered, {"taskwait at row.c:5": 1})
        self.assertEqual(+SEEN.ordered, {})
        grouped = "omptasks 1 taskgroup { # g\n task depend(in: x) { } } taskgroup { # h\n}"
        self.assertEqual(+survey(read(grouped)).ordered, {"taskgroup at g": 1, "taskgroup at h": 1})

    def test_only_what_the_program_has(self):
        seen = survey(read(LOOPS))
        self.assertIn("turns of the loop at tri.c:9", seen.code)
        self.assertEqual(seen.tasks, {"task at tri.c:12": 1, "task at tri.c:13": 1})
        self.assertEqual(seen.waits, {"the barrier of the region at tri.c:7": 1})
        self.assertEqual((+seen.dependent, seen.items, +seen.ordered, seen.depth), ({}, {}, {}, 3))
        self.assertIsNone(seen.creating())
        self.assertEqual(made("factor", "turns of the loop at tri.c:9=0.5", seen).place, "turns of the loop at tri.c:9")
        for option, word in (("join", "turns=4"), ("drop-wait", "the loop"), ("drop-depend", "turns")):
            with self.assertRaisesRegex(Fault, "no task"):
                made(option, word, seen)

    def test_what_creating_a_task_costs(self):
        self.assertEqual(SEEN.creating(), 1)
        self.assertIsNone(survey(read("omptasks 1 task { } taskwait task { }")).creating())
        costs = "".join("task { } work %d " % cost for cost in (9, 4, 7, 30, 5, 1, 8, 100)) + "task { }"
        self.assertEqual(survey(read("omptasks 1 " + costs)).creating(), 4)

    def test_the_list(self):
        lines = list(listing(SEEN, Counter({"task at sort.c:8": 30, "task at sort.c:9": 6})))
        self.assertEqual(lines[0], "code, with its cost (--factor, --split, --grain, --task):")
        self.assertIn("            30  task at sort.c:8", lines)
        self.assertIn("             2  task at sort.c:8", lines)
        self.assertEqual(lines[-1], "depth of the tasks (--cutoff): 2")
        many = survey(read("omptasks 1 task depend(in: %s) { }" % ", ".join("n%d" % i for i in range(32))))
        self.assertIn("                of 2 more names", list(listing(many, Counter())))


if __name__ == "__main__":
    unittest.main()
