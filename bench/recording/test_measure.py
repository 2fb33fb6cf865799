"""python3 -m unittest, in this folder."""
import os
import tempfile
import unittest

from measure import OTHER, WAYS, Built, environment, least, more_row, size_of, table

BUILT = Built("/built", "/r.so", "/convert")


class Measures(unittest.TestCase):
    def test_ways_take_turns_and_the_least_counts(self):
        order = []

        def measure(way):
            order.append(way)
            return 10 - len(order)
        self.assertEqual(least(("a", "b"), measure, 2), {"a": 7, "b": 6})
        self.assertEqual(order, ["a", "b", "a", "b"])

    def test_each_way_has_its_tool_and_clock(self):
        self.assertEqual([BUILT.tool(way) for way in WAYS], ["", "/built/nothing.so", "/r.so", "/r.so"])
        reported = [environment(BUILT.tool(way), way, "o") for way in WAYS]
        self.assertEqual([one.get("OMP_TOOL_LIBRARIES") for one in reported],
                         [None, "/built/nothing.so", "/r.so", "/r.so"])
        self.assertEqual([one.get("SPANPROF_CLOCK") for one in reported], [None, None, None, "cpu"])

    def test_gccs_runtime_loads_no_tool(self):
        self.assertEqual(BUILT.ways_of("gcc-12"), [WAYS[0], WAYS[2]])
        self.assertEqual(BUILT.ways_of("llvm-19"), list(WAYS[:3]))
        self.assertEqual(environment("/r.so", WAYS[2], "o", "LD_PRELOAD")["LD_PRELOAD"], "/r.so")

    def test_another_recorder_is_one_way_more(self):
        both = Built("/built", "/r.so", "/convert", "/o.so")
        self.assertEqual(both.ways(), WAYS + (OTHER,))
        self.assertEqual(both.tool(OTHER), "/o.so")
        self.assertNotIn("SPANPROF_CLOCK", environment("/o.so", OTHER, "o"))

    def test_what_is_more_is_reported_turn_by_turn(self):
        ways = (WAYS[0], WAYS[1], WAYS[2])
        measured = {WAYS[0]: [(2.0, 0), (4.0, 0), (1.0, 0)], WAYS[2]: [(2.5, 32), (4.25, 32), (1.5, 33)]}
        self.assertEqual(more_row("10 us", ways, measured),
                         "| 10 us | 2.00 |  | 0.50 (0.25 to 0.50), 1.50 times | 32 |")
        self.assertEqual(more_row("one", ways, {WAYS[0]: [(2.0, 0)], WAYS[1]: [(2.0, 0)], WAYS[2]: [(3.0, 40)]}),
                         "| one | 2.00 | 0.00 (0.00 to 0.00), 1.00 times | 1.00 (1.00 to 1.00), 1.50 times | 40 |")
        self.assertEqual(table("a", "b"), "| a | b |\n| --- | --- |")

    def test_the_size_of_a_log(self):
        with tempfile.TemporaryDirectory() as folder:
            for name, count in (("head", 400), ("thread.0", 24)):
                with open(os.path.join(folder, name), "wb") as file:
                    file.write(bytes(count))
            self.assertEqual(size_of(folder), 424)


if __name__ == "__main__":
    unittest.main()
