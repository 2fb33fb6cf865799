import unittest
from math import log

from spanprof.predict.interval import ALONE, AS_RECORDED, OF_GROWTH, OF_SPREAD, WIDTHS, spread, width


class Intervals(unittest.TestCase):
    def test_the_middle_half(self):
        self.assertEqual([spread([7]), spread([3, 3, 3])], [0, 0])
        for times, least, most in (([2, 4], 2, 4), ([2, 3, 4], 2, 4), ([1, 2, 3, 4], 2, 3), ([1, 2, 3, 4, 90], 2, 4)):
            self.assertAlmostEqual(spread(times), log(most / least))

    def test_widths(self):
        self.assertEqual([width(AS_RECORDED, recordings, 0, 0) for recordings in (1, 2, 3, 9)],
                         [WIDTHS[AS_RECORDED].by_one] * 2 + [WIDTHS[AS_RECORDED].by_several] * 2)
        self.assertAlmostEqual(width(ALONE, 5, 0.1, -0.2),
                               WIDTHS[ALONE].by_several + 0.1 * OF_SPREAD + 0.2 * OF_GROWTH)


if __name__ == "__main__":
    unittest.main()
