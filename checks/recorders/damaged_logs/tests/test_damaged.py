import unittest

from damaged import BELOW_ZERO


class BelowZero(unittest.TestCase):
    def test_times_of_segments_and_of_the_run_are_looked_at(self):
        for line in (b"3 0 6000 -6143\n", b"3 0 -5 7\n", b"# elapsed: -2396259277859\n"):
            self.assertTrue(BELOW_ZERO.search(b"omptasks 1\n" + line), line)
        for line in (b"3 0 6000 6143\n", b"# elapsed: 7\n", b"work 7  # gcc -3\n", b"# places: 3 0 6 -7\n"):
            self.assertFalse(BELOW_ZERO.search(b"omptasks 1\n" + line), line)


if __name__ == "__main__":
    unittest.main()
