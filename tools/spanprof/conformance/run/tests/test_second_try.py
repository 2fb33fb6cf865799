"""Hangs that may be those of a busy machine are tried again, alone and with more time."""
import dataclasses
import unittest

from spanprof.conformance.judge.cases import Tally
from spanprof.conformance.judge.verdicts import Verdict
from spanprof.conformance.run.campaign import PATIENCE, SecondTries, doubtful
from spanprof.conformance.tests.helpers import case_of, conditions, failure_of


def hang(rule="at taskwait", detail="busy"):
    return dataclasses.replace(failure_of(kind="hung", rule=rule), verdict=Verdict("hung", detail))


class Again(unittest.TestCase):
    def settled(self, failures, again, sure=()):
        """What counts, how many hangs were seen once, and the conditions of the second tries."""
        tried = []

        def try_again(_case, at):
            tried.append(at)
            return Tally(at, 3, 9, again)

        tally = Tally(conditions(), 3, 9, failures)
        (after,) = SecondTries(try_again, set(sure)).settled(case_of(), [tally])
        return after.failures, after.seen_once, tried

    def test_threads_that_all_slept_hang_for_sure(self):
        self.assertFalse(doubtful([Tally(conditions(), 3, 9, [hang(detail="asleep"), failure_of()])]))
        failures = [hang(detail="asleep")]
        self.assertEqual(self.settled(failures, []), (failures, 0, []))

    def test_busy_threads_may_only_be_slow(self):
        self.assertTrue(doubtful([Tally(conditions(), 3, 9, [hang()])]))
        self.assertTrue(doubtful([Tally(conditions(), 3, 9, [hang(detail="")])]))

    def test_a_hang_that_is_seen_again_counts(self):
        failures, once, tried = self.settled([hang()], [hang(detail="asleep")])
        self.assertEqual((failures, once), ([hang()], 0))
        self.assertEqual([at.timeout for at in tried], [conditions().timeout * PATIENCE])

    def test_one_that_is_not_seen_again_is_reported(self):
        self.assertEqual(self.settled([failure_of(), hang()], [])[:2], ([failure_of()], 1))
        self.assertEqual(self.settled([hang()], [failure_of()])[:2], ([], 1))

    def test_one_second_try_stands_for_its_signature(self):
        self.assertEqual(len(self.settled([hang(), hang()], [hang()])[2]), 1)
        self.assertEqual(len(self.settled([hang(), hang("at taskgroup")], [hang()])[2]), 2)

    def test_one_that_was_sure_before_is_not_tried(self):
        self.assertEqual(self.settled([hang()], [], [hang().signature]), ([hang()], 0, []))


if __name__ == "__main__":
    unittest.main()
