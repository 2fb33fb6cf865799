import unittest
from math import log2

from spanprof.predict.growth import SHARE, Growth, doublings
from spanprof.predict.matching import Names, matched
from spanprof.predict.program import read_program
from spanprof.predict.recorded import Recorded

FEWER = "omptasks 1\ntask {  # a.c:1\nwork 100\n}\ntask {  # b.c:2\nwork 300\n}\ntaskwait\nwork 1\n"
MORE = "omptasks 1\ntask {  # b.c:2\nwork 300\n}\ntask {  # a.c:1\nwork 150\n}\ntaskwait\nwork 1\n"


def recorded(threads, *texts, outside=0):
    return [Recorded(read_program(text), threads, outside=outside) for text in texts]


def growth(fewer=FEWER, more=MORE, outside=(0, 0)):
    return Growth(recorded(1, fewer, outside=outside[0]), recorded(2, more, outside=outside[1]))


class Matching(unittest.TestCase):
    def test_by_place_and_number(self):
        names = Names()
        first, second = [names.of(read_program(text)) for text in (FEWER, MORE)]
        self.assertEqual((first[1], first[3]), (second[3], second[1]))     # the tasks, in the other order
        self.assertEqual(len(set(first)), len(first))

    def test_costs_by_place(self):
        found = matched(read_program(FEWER), read_program(MORE))
        self.assertEqual((found.first["task at a.c:1"], found.second["task at a.c:1"]), (100, 150))
        self.assertEqual(found.only_second, 0)

    def test_what_only_one_has(self):
        found = matched(read_program(FEWER), read_program("omptasks 1\ntask {  # a.c:1\nwork 7\ntask { work 5 }\n}\n"))
        self.assertEqual((found.first["task at a.c:1"], found.second["task at a.c:1"]), (100, 7))
        self.assertEqual(found.only_second, 5)

    def test_the_second_of_a_place(self):
        found = matched(read_program(FEWER), read_program(FEWER + "task {  # a.c:1\nwork 9\n}\n"))
        self.assertEqual((found.first["task at a.c:1"], found.only_second), (100, 9))


class Growing(unittest.TestCase):
    def test_steps(self):
        self.assertEqual((doublings(1, 2, 4), doublings(1, 2, 2), doublings(2, 4, 16)), (1, 0, 2))
        self.assertAlmostEqual(doublings(1, 2, 3), log2(1.5))

    def test_each_doubling_adds_a_share(self):
        found = growth()
        self.assertEqual([round(150 * found.factor("task at a.c:1", threads)) for threads in (1, 2, 4, 8)],
                         [100, 150, round(150 + 50 * SHARE), round(150 + 100 * SHARE)])
        self.assertEqual(found.costs(read_program(MORE), 4), [0, 300, 0, round(150 + 50 * SHARE), 0, 1])
        self.assertEqual((found.inflation("task at a.c:1"), found.inflation("elsewhere")), (1.5, 1.0))

    def test_the_medians_of_several_count(self):
        slow = MORE.replace("150", "900")
        found = Growth(recorded(1, FEWER), recorded(2, MORE, slow, MORE))
        self.assertEqual((found.inflation("task at a.c:1"), found.unmatched), (1.5, 0))
        self.assertEqual(Growth(recorded(1, FEWER, FEWER, FEWER), recorded(2, slow)).inflation("task at a.c:1"), 9)

    def test_what_got_cheaper_or_is_light_stays(self):
        found = growth(MORE, FEWER)
        self.assertEqual((found.factor("task at a.c:1", 4), found.factor("after a taskwait", 4)), (1.0, 1.0))

    def test_outside(self):
        two, = recorded(2, MORE, outside=100)
        self.assertEqual([growth(outside=(3, 100)).outside(two, threads) for threads in (2, 4, 8)], [100, 197, 294])
        self.assertEqual(growth(outside=(109, 100)).outside(two, 4), 100)


if __name__ == "__main__":
    unittest.main()
