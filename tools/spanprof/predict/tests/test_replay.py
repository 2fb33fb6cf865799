import unittest

from spanprof.predict.program import read_program
from spanprof.predict.replay import IN_PLACE, Replay, replayed, without_lock
from spanprof.predict.times import times_of

ALONE = "omptasks 1 work 10 task if(0) { work 20 } work 5 taskwait work 3"


def times(text, *rows):
    """Rows of a segment, its thread, and when it begins and ends."""
    return times_of(read_program(text), rows)


class WithoutOtherPrograms(unittest.TestCase):
    def test_what_waits_for_it_begins_earlier(self):
        """Another program took 10 of the child's time; the wait ends 4 after it, as it did."""
        found = times("omptasks 1 work 10 task { work 20 } work 5 taskwait work 3",
                      (0, 0, 100, 110), (2, 0, 110, 115), (1, 1, 116, 146), (3, 0, 150, 153))
        self.assertEqual(Replay(found, 0).run(), 43)
        self.assertEqual(Replay(found, 2).run(), 43)    # what a record takes is hidden by the lock

    def test_the_end_of_a_group(self):
        found = times("omptasks 1 taskgroup { task { work 9 } } work 1",
                      (0, 0, 0, 0), (2, 0, 0, 0), (1, 1, 5, 24), (3, 0, 26, 27))
        self.assertEqual(Replay(found, 0).run(), 5 + 9 + 2 + 1)

    def test_depend(self):
        found = times("omptasks 1 task depend(out: a) { work 10 } task depend(in: a) { work 10 }",
                      (0, 0, 0, 1), (2, 0, 1, 2), (4, 0, 2, 3), (1, 1, 4, 24), (3, 0, 27, 37))
        self.assertEqual(Replay(found, 0).run(), 4 + 10 + 3 + 10)

    def test_a_thread_comes_when_it_came(self):
        found = times("omptasks 1 work 10 task { work 20 }", (0, 0, 0, 20), (2, 0, 20, 20), (1, 1, 90, 110))
        self.assertEqual(Replay(found, 0).run(), 110)


class WithoutRecords(unittest.TestCase):
    def test_of_what_takes_no_lock(self):
        self.assertEqual(without_lock(read_program(ALONE)), {1, 2, 3})
        text = "omptasks 1 task { taskwait } taskwait task if(0) { } taskgroup { }"
        self.assertEqual(without_lock(read_program(text)), {2, 5, 6})

    def test_they_are_in_code_and_in_gaps(self):
        """The task begins 4 after its creation, and the wait takes 5; each has a record of 3, as all code has."""
        found = times(ALONE, (0, 0, 0, 10), (1, 0, 14, 34), (2, 0, 34, 39), (3, 0, 44, 47))
        self.assertEqual(Replay(found, 3).run(), 10 + 1 + 17 + 2 + 2 + 0)
        self.assertEqual((IN_PLACE, replayed(found, 2)), (2.5, 10 + 0 + 15 + 0 + 0 + 0))


if __name__ == "__main__":
    unittest.main()
