"""The module over a library that is written here, so that no other is needed."""
import array
import hashlib
import os
import pathlib
import tempfile
import unittest
from unittest import mock

from spanprof import c_calls, library

TEXT = b"omptasks 1 work 5 task { work 3 } work 2 taskwait work 1"
COSTS = [5, 3, 2, 1]


def fill(pointer, **values):
    for name, value in values.items():
        setattr(pointer._obj, name, value)


class Written:
    """Four segments in a row, under the costs that are given; a text that is no program is refused on line 7, and one
    that says `many` unless any size is allowed."""

    def __init__(self, costs=COSTS):
        self.own, self.asked = costs, []

    def answers(self, text, any_size, costs, count, place):
        self.asked.append((text.value, list(costs[:count.value])))
        place._obj.line = 0 if text.value.startswith(b"omptasks") else 7
        if place._obj.line:
            return 4
        if b"many" in text.value and not any_size.value:
            return 9
        return 16 if count.value not in (0, len(self.own)) else 0

    def under(self, costs, count):
        return list(costs[:count.value]) or self.own

    def spanprof_measure(self, text, _bytes, any_size, costs, count, reported, place):
        number = self.answers(text, any_size, costs, count, place)
        if number == 0:
            work = sum(self.under(costs, count))
            fill(reported, segments=len(self.own), work=work, span=work)
        return number

    def spanprof_segments(self, _text, _bytes, _any, tasks, _many, costs, _also, _place):
        tasks[:], costs[:] = [0, 1, 0, 0], self.own
        return 0

    def spanprof_analyse(self, _text, _bytes, _any, costs, count, starts, _s, slacks, _l, path, _p, reported, _place):
        under = self.under(costs, count)
        starts[:], slacks[:], path[:] = [sum(under[:s]) for s in range(4)], [0] * 4, [0, 1, 2, 3]
        fill(reported, work=sum(under), span=sum(under), path_length=3)
        return 0

    def spanprof_greedy(self, _text, _bytes, _any, costs, count, threads, starts, _s, on, _o, end, _place):
        starts[:], on[:] = [0, 1, 2, 3], [0, threads.value - 1, 0, library.NO_THREAD]
        end._obj.value = sum(self.under(costs, count))
        return 0

    def spanprof_curve(self, _text, _bytes, _any, _costs, _count, ends, many, _place):
        ends[:] = [100 - p for p in range(many.value)]
        return 0

    def spanprof_is_legal(self, _text, _bytes, _any, _costs, _count, starts, many, legal, _place):
        legal._obj.value = list(starts[:many.value]) == [0, 1, 2, 3]
        return 0

    def spanprof_bounds(self, work, span, threads, reported):
        fill(reported, least=max(span.value, work.value // threads.value), greatest=work.value)
        return 0

    def spanprof_account(self, _text, _bytes, _any, count, first, last, threads, _t, begins, _b, ends, _e, ready, many,
                         reported, place):
        if threads[3] == 9:
            place._obj.segment, place._obj.other = 3, 2
            return 23
        fill(reported, busy=count.value, delayed=first.value, starved=last.value, outside=begins[1] + ends[1])
        ready[:] = range(many.value)
        return 0

    def spanprof_check(self, document, _bytes, _any, reported, place):
        if b"chain" not in document.value:
            place._obj.segment = 0
            return 25
        fill(reported, segments=4, ends_at=9)
        return 0


class WithoutNumpy(unittest.TestCase):
    def setUp(self):
        self.written = Written()
        for name, value in (("shared", lambda: self.written), ("numpy", lambda: None)):
            patch = mock.patch.object(c_calls, name, value)
            patch.start()
            self.addCleanup(patch.stop)


class Answers(WithoutNumpy):
    def test_the_three_numbers(self):
        program = library.parse(TEXT)
        self.assertEqual((program.segments, program.work, program.span), (4, 11, 11))
        self.assertEqual(self.written.asked, [(TEXT, [])])

    def test_a_text_in_characters(self):
        self.assertEqual(library.parse("omptasks 1 # \u00e9").text, "omptasks 1 # \u00e9".encode())

    def test_lists(self):
        program = library.parse(TEXT)
        self.assertEqual(list(program.tasks), [0, 1, 0, 0])
        self.assertEqual(list(program.costs), COSTS)
        self.assertEqual(list(program.starts()), [0, 5, 8, 10])
        self.assertEqual(list(program.slack()), [0] * 4)
        self.assertEqual(list(program.path()), [0, 1, 2])
        self.assertEqual(list(program.curve(3)), [100, 99, 98])

    def test_a_list_that_is_changed_changes_nothing_else(self):
        program = library.parse(TEXT)
        program.costs[0], program.starts()[0] = 9, 9
        self.assertEqual((program.costs[0], program.starts()[0]), (5, 0))

    def test_a_greedy_run(self):
        run = library.parse(TEXT).greedy(4)
        self.assertEqual(list(run.threads), [0, 3, 0, library.NO_THREAD])
        self.assertEqual((list(run.starts), run.end), ([0, 1, 2, 3], 11))

    def test_bounds(self):
        self.assertEqual(library.parse(TEXT).bounds(2), (11, 11))

    def test_schedules(self):
        program = library.parse(TEXT)
        self.assertTrue(program.is_legal([0, 1, 2, 3]))
        self.assertFalse(program.is_legal([]))


class Runs(WithoutNumpy):
    def test_an_account(self):
        account = library.parse(TEXT).account([0, 1, 0, 1], [2, 5, 7, 9], [5, 7, 9, 12])
        self.assertEqual(account[:4], (2, 2, 12, 12))
        self.assertEqual(list(account.ready), [0, 1, 2, 3])

    def test_threads_and_moments_that_are_said(self):
        account = library.parse(TEXT).account([0] * 4, [2] * 4, [5] * 4, count=8, first=0, last=20)
        self.assertEqual(account[:3], (8, 0, 20))

    def test_times_that_are_refused(self):
        program = library.parse(TEXT)
        with self.assertRaises(library.Refused) as caught:
            program.account([0, 0, 0, 9], [0] * 4, [1] * 4)
        self.assertEqual((caught.exception.segments, str(caught.exception)), ((3, 2), "TooSoon 3 2"))
        with self.assertRaisesRegex(library.Refused, "OutOfTime"):
            program.account([0] * 4, [-1] * 4, [1] * 4)

    def test_certificates(self):
        self.assertEqual(library.check("omptasks 1\n---\nend 9 chain 0"), (4, 9))
        with self.assertRaisesRegex(library.Refused, "^BadForm$"):
            library.check(b"omptasks 1\n")


class AnySize(WithoutNumpy):
    def test_a_text_beyond_the_limits_is_read_all_the_same(self):
        self.assertFalse(library.parse(TEXT).any_size)
        program = library.parse(TEXT + b" many")
        self.assertTrue(program.any_size)
        self.assertTrue(program.what_if({1: 5}).any_size)

    def test_one_of_version_2_is_too(self):
        self.assertTrue(library.parse(b"omptasks 2 many").any_size)


class OtherCosts(WithoutNumpy):
    def test_costs_of_some_segments(self):
        other = library.parse(TEXT).what_if({1: 30})
        self.assertEqual((other.work, list(other.costs)), (38, [5, 30, 2, 1]))

    def test_changes_of_a_changed_program(self):
        other = library.parse(TEXT).what_if({1: 30}).what_if({0: 0})
        self.assertEqual(list(other.costs), [0, 30, 2, 1])
        self.assertEqual(self.written.asked[-1][1], [0, 30, 2, 1])

    def test_costs_of_all_segments(self):
        self.assertEqual(library.parse(TEXT).what_if(range(4)).greedy(1).end, 6)

    def test_costs_that_are_none(self):
        program = library.parse(TEXT)
        for costs, kind in (([], "CostCount"), ([1], "CostCount"), ({4: 1}, "UnknownSegment"), ({-1: 1},
                            "UnknownSegment"), ({0: -1}, "CostsTooLarge"), ({0: 2 ** 64}, "CostsTooLarge")):
            with self.assertRaises(library.Refused) as caught:
                program.what_if(costs)
            self.assertEqual(caught.exception.kind, kind)


class Refusals(WithoutNumpy):
    def test_a_text_that_is_none(self):
        with self.assertRaises(library.Refused) as caught:
            library.parse(b"nothing")
        self.assertEqual((caught.exception.kind, caught.exception.line), ("BadWord", 7))
        self.assertEqual(str(caught.exception), "line 7: BadWord")

    def test_numbers_of_threads(self):
        program = library.parse(TEXT)
        for call in (program.greedy, program.curve, program.bounds):
            for threads in (0, -1, 1025):
                with self.assertRaises(library.Refused) as caught:
                    call(threads)
                self.assertEqual((caught.exception.kind, str(caught.exception)), ("ThreadCount", "ThreadCount"))

    def test_out_of_memory(self):
        with self.assertRaises(MemoryError):
            c_calls.refuse(13, c_calls.Place())

    def test_no_file(self):
        with self.assertRaises(FileNotFoundError):
            library.read("no such file")


class Finding(unittest.TestCase):
    def test_the_library_that_is_named(self):
        with mock.patch.dict(os.environ, SPANPROF_LIBRARY="/none/lib.so"):
            self.assertEqual(c_calls.places(), ["/none/lib.so"])
            c_calls.shared.cache_clear()
            with self.assertRaisesRegex(library.NoLibrary, "/none/lib.so: .* SPANPROF_LIBRARY names it"):
                c_calls.shared()

    def test_the_system_s_at_last(self):
        with mock.patch.dict(os.environ), mock.patch("os.path.exists", return_value=False):
            os.environ.pop("SPANPROF_LIBRARY", None)
            self.assertEqual(c_calls.places(), ["libspanprof.so"])

    def test_the_proved_one_before_that_of_the_reference_implementation(self):
        with mock.patch.dict(os.environ), mock.patch("os.path.exists", return_value=True):
            os.environ.pop("SPANPROF_LIBRARY", None)
            folders = [os.path.basename(os.path.dirname(place)) for place in c_calls.places()]
        self.assertEqual(folders, ["spanprof", "library", "lib", "release", "out", ""])

    def test_which_one_answers_and_whether_it_was_proved(self):
        with tempfile.TemporaryDirectory() as folder, mock.patch.object(c_calls, "shared"):
            path = os.path.join(folder, "libspanprof.so")
            with mock.patch.dict(os.environ, SPANPROF_LIBRARY=path):
                pathlib.Path(path).write_bytes(b"some library")
                self.assertEqual(library.about(), (path, False))
                digest = hashlib.sha256(b"some library").hexdigest()
                pathlib.Path(path + ".sha256").write_text("%s  libspanprof.so\n" % digest, encoding="ascii")
                self.assertEqual(library.about(), (path, True))
                pathlib.Path(path).write_bytes(b"another one")
                self.assertEqual(library.about(), (path, False))
            with mock.patch.dict(os.environ, SPANPROF_LIBRARY="libspanprof.so"):
                self.assertEqual(library.about(), ("libspanprof.so", False))


class Arrays(unittest.TestCase):
    def test_an_empty_list_has_a_place(self):
        pointer, count = c_calls.passed(array.array("Q"))
        self.assertEqual((len(pointer), count.value), (1, 0))

    def test_numpy_where_it_is_there(self):
        if c_calls.numpy() is None:
            self.skipTest("numpy is missing")
        numbers = c_calls.for_caller(array.array("Q", [2 ** 63, 1]))
        self.assertEqual((str(numbers.dtype), int(numbers[0])), ("uint64", 2 ** 63))


if __name__ == "__main__":
    unittest.main()
