"""As few places of delays as make a program fail, found by a bench that runs nothing."""
import dataclasses
import pathlib
import unittest
from unittest import mock

from spanprof.conformance.run.reproduce import delays_reported, fewest, fewest_delays, passed
from spanprof.conformance.tests.helpers import case_of, conditions

PLACES = tuple(f"{number:x}+" for number in range(1, 33))


class Bench:
    """Writes the places of a run where it is asked for them."""
    environment = {"A": "1"}

    def __init__(self, places=PLACES):
        self.places = places

    def try_case(self, _case, _conditions):
        if self.places:
            pathlib.Path(self.environment["PERTURB_PLACES"]).write_text("\n".join([*self.places, self.places[0], ""]))


class Fewest(unittest.TestCase):
    def test_those_that_are_needed(self):
        found = fewest(PLACES, lambda some: {"5+", "1c+"} <= set(some), lambda: False)
        self.assertEqual(found, ("5+", "1c+"))

    def test_none_where_it_fails_anyway(self):
        self.assertEqual(fewest(PLACES, lambda some: True, lambda: False), ())

    def test_no_more_tries_once_the_time_is_over(self):
        self.assertEqual(fewest(PLACES, lambda some: True, lambda: True), PLACES)


class Delays(unittest.TestCase):
    def found(self, bench, fails):
        return fewest_delays(bench, case_of(), dataclasses.replace(conditions(), perturb="12"), fails)

    def test_places_of_a_run(self):
        bench = Bench()
        self.assertEqual(passed(bench, case_of(), conditions()), PLACES)
        self.assertNotIn("PERTURB_PLACES", bench.environment)
        self.assertEqual(passed(Bench(()), case_of(), conditions()), ())

    def test_one_place(self):
        self.assertEqual(self.found(Bench(), lambda perturb: "1c+" in perturb.split(":")[1].split(",")), "12:1c+")

    def test_seed_alone_where_its_places_do_not_make_it_fail(self):
        self.assertEqual(self.found(Bench(), lambda _: False), "12")
        self.assertEqual(self.found(Bench(()), lambda _: True), "12")


class Told(unittest.TestCase):
    def test_words(self):
        with mock.patch("spanprof.conformance.run.reproduce.named", lambda _, place: f"at {place}"):
            self.assertEqual(delays_reported("x", "12:1+,2-"), "Threads were delayed at 1+, at 2- by seed 12.")
        self.assertEqual(delays_reported("x", "12"), "Threads were delayed at the places of seed 12.")
        self.assertEqual(delays_reported("x", "12:"), "It fails without delays in the runtime too.")
        self.assertEqual(delays_reported("x", ""), "")


if __name__ == "__main__":
    unittest.main()
