import unittest

from judging import Case, Judged, conformal, held, quantile, summary, widths

from spanprof.predict.interval import OF_GROWTH, OF_SPREAD, Width

SAME, OTHERS, ALONE = Case((4,), 4, 0.05, 0.15), Case((1, 2), 4, 0.08, 0.2), Case((2,), 4, 0.08, 0.25)


def judged(time, true=100, case=SAME, grown=0.0, program="a", recordings=1, apart=0.0):
    return Judged(program, 1, case, time, time - 5, time + 5, grown, true, recordings, apart)


class Numbers(unittest.TestCase):
    def test_nine_of_ten(self):
        self.assertEqual([quantile(range(1, n + 1), 0.9) for n in (1, 10, 11, 20)], [1, 9, 10, 18])

    def test_a_width_that_holds_for_another_one(self):
        """Of nine numbers the next is below the greatest in nine of ten cases, and below the second in eight."""
        self.assertEqual([conformal(range(1, n + 1), 0.9) for n in (1, 9, 19, 99)], [1, 9, 18, 90])
        self.assertEqual([conformal(range(1, n + 1)) for n in (1, 19, 99)], [1, 19, 97])

    def test_errors(self):
        self.assertAlmostEqual(judged(110).error, 0.1)
        self.assertAlmostEqual(judged(100, 110).far, judged(110, 100).far)
        self.assertEqual([judged(time).is_covered for time in (94, 95, 105, 106)], [False, True, True, False])
        median, nine, worst, covered = summary([judged(time) for time in (100, 97, 104, 120)])
        self.assertEqual([round(one, 2) for one in (median, nine, worst)] + [covered], [0.04, 0.2, 0.2, 3])

    def test_what_growth_and_spread_account_for(self):
        one = judged(130, grown=-0.2, apart=0.1)
        self.assertAlmostEqual(one.far - one.beyond, 0.2 * OF_GROWTH + 0.1 * OF_SPREAD)


class Widths(unittest.TestCase):
    def test_kinds(self):
        self.assertEqual([case.kind for case in (SAME, OTHERS, ALONE)], ["as recorded", "on others", "alone"])
        self.assertEqual(OTHERS.name, "4 threads from 1 and 2")

    def test_of_each_kind(self):
        found = widths([judged(110), judged(100), judged(104, recordings=3), judged(80, case=ALONE),
                        judged(90, case=ALONE, recordings=5)])
        self.assertEqual(found, {"as recorded": Width(0.10, 0.04), "alone": Width(0.23, 0.11)})

    def test_by_the_other_programs(self):
        """That of the first two is as wide as the last gives, and that of the last as the first two."""
        several = [judged(100, true, program=program, recordings=recordings)
                   for true, program in ((108, "a"), (103, "a"), (105, "b")) for recordings in (1, 3)]
        self.assertEqual(held(several), 4)


if __name__ == "__main__":
    unittest.main()
