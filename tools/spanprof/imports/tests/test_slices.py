"""In tools/: python3 -m unittest discover -s spanprof/imports/tests -t ."""
import random
import unittest

from spanprof.command import Fault
from spanprof.imports.chrome import Flow, Slice, tasks_of
from spanprof.imports.folder import run_of
from spanprof.imports.tasks import in_order


def some(*slices):
    return [Slice(name, "x:%d" % number, begin, end) for number, (name, begin, end) in enumerate(slices)]


def flow(source, target, is_inside=True):
    """Of pairs of a thread and a moment."""
    return Flow("x:9", source, target, is_inside)


def reported(slices, *flows):
    return [(one.name, one.begin, one.end, one.before) for one in tasks_of(slices, flows)[0]]


NESTED = (("f", 0, 10), ("g", 2, 5), ("h", 3, 4), ("i", 5, 6))


class Pieces(unittest.TestCase):
    def test_of_the_innermost_slices_one_after_the_other(self):
        self.assertEqual(reported({1: some(*NESTED)}), [
            ("f", 0, 2, []), ("g", 2, 3, [0]), ("h", 3, 4, [1]), ("g", 4, 5, [2]), ("i", 5, 6, [3]),
            ("f", 6, 10, [4])])

    def test_a_thread_is_in_order_without_flows_and_each_slice_alone_with_them(self):
        slices = {1: some(("a", 0, 2), ("b", 2, 4)), 2: some(("c", 4, 9))}
        self.assertEqual([one[3] for one in reported(slices)], [[], [0], []])
        self.assertEqual([one[3] for one in reported(slices, flow((1, 3), (2, 5)))], [[], [], [1]])

    def test_rounded_ends(self):
        self.assertEqual(reported({1: some(("a", 0, 5000), ("b", 4000, 5900), ("c", 2000, 5100))}), [
            ("a", 0, 2000, []), ("c", 2000, 5000, [0]), ("b", 5000, 5900, [1])])
        with self.assertRaisesRegex(Fault, "x:1: b begins in a and ends after it, on one thread"):
            tasks_of({1: some(("a", 0, 5000), ("b", 3000, 7000))}, [])


class Flows(unittest.TestCase):
    def test_a_slice_that_is_over_is_waited_for_as_a_whole(self):
        slices = {1: some(("a", 0, 4)), 2: some(("b", 4, 9))}
        for source, target, is_inside in ((1, 4, True), (2, 6, True), (2, 1, False)):
            self.assertEqual(reported(slices, flow((1, source), (2, target), is_inside)), [
                ("a", 0, 4, []), ("b", 4, 9, [0])])

    def test_else_both_are_cut(self):
        slices = {1: some(("a", 0, 8)), 2: some(("b", 1, 9))}
        self.assertEqual(reported(slices, flow((1, 3), (2, 5))), [
            ("a", 0, 3, []), ("a", 3, 8, [0]), ("b", 1, 5, []), ("b", 5, 9, [2, 0])])

    def test_at_a_begin_and_an_end_there_is_a_piece_of_no_length(self):
        slices = {1: some(("a", 0, 8)), 2: some(("b", 0, 8))}
        self.assertEqual(reported(slices, flow((1, 0), (2, 8))), [
            ("a", 0, 0, []), ("a", 0, 8, [0]), ("b", 0, 8, []), ("b", 8, 8, [2, 0])])

    def test_the_innermost_slice_waits(self):
        slices = {1: some(*NESTED), 2: some(("b", 4, 9))}
        self.assertEqual(reported(slices, flow((1, 3), (2, 4)))[6], ("b", 4, 9, [2]))
        slices = {1: some(*NESTED), 2: some(("b", 0, 2))}
        self.assertEqual(reported(slices, flow((2, 1), (1, 2)))[1], ("g", 2, 3, [0, 6]))
        self.assertEqual(reported(slices, flow((2, 1), (1, 4), False))[4], ("i", 5, 6, [3, 6]))

    def test_within_one_slice(self):
        self.assertEqual(reported({1: some(("a", 0, 8))}, flow((1, 2), (1, 5)))[2], ("a", 5, 8, [1, 0]))
        for moment in (0, 8):
            found = reported({1: some(("a", 0, 8))}, flow((1, moment), (1, moment)))
            self.assertTrue(all(number not in one[3] for number, one in enumerate(found)))

    def test_what_is_wrong_with_one(self):
        slices = {1: some(("a", 0, 4)), 2: some(("b", 5, 6))}
        for source, target, is_inside, words in (
                ((1, 5), (2, 5), True, "no slice of the thread is around this flow"),
                ((1, 2), (2, 4), True, "no slice of the thread is around this flow"),
                ((1, 2), (2, 6), False, "no slice of the thread begins behind this flow"),
                ((1, 2), (3, 6), True, "this flow begins or ends on a thread without slices")):
            self.assertEqual(tasks_of(slices, [flow(source, target, is_inside)])[1], ["x:9: " + words])


def random_slices(draw, begin, end, depth=0):
    """Beside each other, others inside them."""
    while begin < end:
        begin += draw.randrange(4)
        length = draw.randrange(9)
        if begin + length <= end:
            yield "s%d" % depth, begin, begin + length
            if depth < 3:
                yield from random_slices(draw, begin, begin + length, depth + 1)
        begin += max(length, 1)


class Random(unittest.TestCase):
    def test_all_time_is_there_once_and_the_run_is_legal(self):
        faults = 0
        for seed in range(300):
            draw = random.Random(seed)
            slices = {thread: some(*random_slices(draw, 0, 40)) for thread in range(3)}
            busy = [moment for thread in slices for moment in range(40) if any(
                one.begin <= moment < one.end for one in slices[thread])]
            moments = [(thread, draw.choice((one.begin, one.end, (one.begin + one.end) // 2)))
                       for thread in slices for one in slices[thread]]
            flows = [flow(*sorted(draw.sample(moments, 2), key=lambda pair: pair[1])) for _ in range(3)]
            tasks, _ = tasks_of(slices, flows)
            self.assertEqual(sum(task.cost for task in tasks), len(busy), seed)
            try:
                run, why = run_of(in_order(tasks))
                self.assertTrue(run, (seed, why))
            except Fault:   # of slices without a length, each of which may be reported to wait for another
                faults += 1
        self.assertLess(faults, 5)


if __name__ == "__main__":
    unittest.main()
