import unittest

import trial


class Trial(unittest.TestCase):
    def test_the_reason_is_the_last_word_of_the_recorder(self):
        said = "a line of the program\nspanprof-record: nothing was recorded: no task in a region\n"
        self.assertEqual(trial.reason(said), "nothing was recorded: no task in a region")
        self.assertEqual(trial.reason("a line of the program\n"), "")

    def test_every_gap_has_a_reason(self):
        self.assertTrue(all(trial.GAPS.values()))


if __name__ == "__main__":
    unittest.main()
