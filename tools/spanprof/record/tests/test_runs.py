import unittest

from spanprof.record.session import middle, others_share


class OneOfRuns(unittest.TestCase):
    def test_that_with_the_median_time_is_kept(self):
        numbers = [{"elapsed_ns": time} for time in (30, 10, 20, 40)]
        self.assertEqual(middle(numbers, [0.0] * 4), 2)
        self.assertEqual(middle(numbers[:1], [0.9]), 0)

    def test_those_that_others_disturbed_more_do_not_count(self):
        numbers = [{"elapsed_ns": time} for time in (30, 10, 20, 40, 50)]
        self.assertEqual(middle(numbers, [0.3, 0.01, 0.05, 0.4, 0.1]), 1)
        self.assertEqual(middle(numbers, [0.3, 0.3, 0.3, 0.4, 0.32]), 2)

    def test_what_others_took_is_of_all_processors(self):
        host, usage = {"host_processors": 4, "busy_ns": 90, "stolen_ns": 30}, {"user_ns": 60, "system_ns": 20}
        self.assertEqual(others_share({"host": host, "usage": usage, "elapsed_ns": 100}), 0.1)
        for meta in ({}, {"host": None, "usage": None, "elapsed_ns": 100}, {"host": {"host_processors": 4}}):
            self.assertEqual(others_share(meta), 0.0)


if __name__ == "__main__":
    unittest.main()
