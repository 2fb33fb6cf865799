import unittest

from spanprof.diagnosis.output import needs_trials
from spanprof.diagnosis.tests.worked import MS, facts, place


def run(pieces, **parts):
    return facts([place("task at a.c:1", pieces=pieces, tasks=pieces)], **parts)


class Trials(unittest.TestCase):
    def test_of_a_long_text_only_where_its_shape_may_be_the_cause(self):
        self.assertFalse(needs_trials(run(90000, at_locks=200 * MS), 10))
        self.assertTrue(needs_trials(run(90, at_locks=200 * MS), 10))
        self.assertTrue(needs_trials(run(90000, at_locks=20 * MS), 10))
        self.assertTrue(needs_trials(run(90000), 10))

    def test_none_where_the_text_takes_most_of_the_time_to_read(self):
        self.assertEqual([needs_trials(run(1000000), seconds) for seconds in (-1, 10, 20)], [False, False, True])


if __name__ == "__main__":
    unittest.main()
