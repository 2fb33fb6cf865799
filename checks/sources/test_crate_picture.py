#!/usr/bin/env python3
"""Tests of crate_picture.py."""
import unittest

from crate_picture import LAYERS, dot, mark, read_crates, reachable, reduced

TEXT = """low:
middle: low clap
high may_wait=2: low middle
high_tests tests_may=Threads: high low  # tests alone
calling: high
"""


class Crates(unittest.TestCase):
    def test_crates_of_tests_and_of_the_toolchain_are_left_out(self):
        self.assertEqual(read_crates(TEXT), {"low": set(), "middle": {"low"}, "high": {"low", "middle"}})

    def test_what_others_lead_to_is_left_out(self):
        self.assertEqual(reduced(read_crates(TEXT)), {"low": set(), "middle": {"low"}, "high": {"middle"}})

    def test_reduced_edges_lead_as_far(self):
        below = {"a": set(), "b": {"a"}, "c": {"a"}, "d": {"a", "b", "c"}}
        self.assertEqual({name: reachable(below, name) for name in below},
                         {name: reachable(reduced(below), name) for name in below})

    def test_a_crate_without_a_layer_is_named(self):
        with self.assertRaisesRegex(ValueError, "other"):
            dot({name: set() for _, _, names in LAYERS for name in names} | {"other": set()})

    def test_another_edge_has_another_mark(self):
        below = {name: set() for _, _, names in LAYERS for name in names}
        self.assertNotEqual(mark(dot(below)), mark(dot(below | {"spanprof": {"spanprof_command"}})))


if __name__ == "__main__":
    unittest.main()
