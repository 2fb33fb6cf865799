import unittest

from spanprof.head import Head
from spanprof.report.figures import Units, grouped, unit_name


def words(unit, *values):
    units = Units(Head(unit=unit))
    return [units.shown(value).words for value in values]


class Times(unittest.TestCase):
    def test_three_digits_in_the_largest_unit(self):
        self.assertEqual(words("us", 0, 1, 999, 1000, 8892, 594114, 9999999, 1234567890),
                         ["0 µs", "1 µs", "999 µs", "1.00 ms", "8.89 ms", "594 ms", "10.0 s", "1,235 s"])
        self.assertEqual(words("ns", 57, 999499, 999600), ["57 ns", "999 µs", "1.00 ms"])
        self.assertEqual(words("ms", 3, 1500), ["3 ms", "1.50 s"])

    def test_a_unit_of_so_many_nanoseconds(self):
        self.assertEqual(words("250 ns", 0, 3, 5000), ["0 ns", "750 ns", "1.25 ms"])
        self.assertEqual(Units(Head(unit="250 ns")).exact(1234), "1,234 × 250 ns")
        self.assertEqual(Units(Head(unit="250 ns")).plain(1234), "1,234")

    def test_declared_costs_stand_as_they_are(self):
        self.assertEqual(words("", 1234567), ["1,234,567"])

    def test_a_bound_is_never_reported_better_than_it_is(self):
        units = Units(Head(unit="us"))
        self.assertEqual([units.shown(8886, way).words for way in ("down", None, "up")],
                         ["8.88 ms", "8.89 ms", "8.89 ms"])
        self.assertEqual(units.shown(999991, "up").words, "1.00 s")
        self.assertEqual(units.shown(999991, "down").words, "999 ms")

    def test_by_how_much_it_is_divided(self):
        self.assertEqual(Units(Head(unit="us")).shown(8886).scale, 1000)
        self.assertEqual(Units(Head(unit="250 ns")).shown(5000).scale, 4000)
        self.assertEqual(Units(Head(unit="")).shown(5000).scale, 1)


class Small(unittest.TestCase):
    def test_grouped(self):
        self.assertEqual([grouped(1234567), grouped(-12), grouped(2.345, 2)], ["1,234,567", "−12", "2.35"])

    def test_nothing_has_no_sign(self):
        self.assertEqual([grouped(value, 1) for value in (-0.04, 0.04, -0.06)], ["0.0", "0.0", "−0.1"])

    def test_names(self):
        self.assertEqual([unit_name(unit) for unit in ("us", "ns", "", "250 ns")], ["µs", "ns", "", "× 250 ns"])
