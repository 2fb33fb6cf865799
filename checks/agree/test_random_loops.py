"""Tests of random_loops.py that need no program: python3 -m unittest test_random_loops in checks/."""
import random
import unittest

import random_loops


class Drawing(unittest.TestCase):
    def test_same_seed_same_text(self):
        self.assertEqual(random_loops.draw_loops(7), random_loops.draw_loops(7))
        self.assertNotEqual(random_loops.draw_loops(7), random_loops.draw_loops(9))

    def test_all_are_of_version_2(self):
        drawn = [random_loops.draw_loops(seed) for seed in range(60)]
        self.assertTrue(all(text.startswith("omptasks 2\n") for text in drawn))
        self.assertTrue(any("for i " in text for text in drawn))
        self.assertTrue(any("final(1)" in text for text in drawn))

    def test_an_index_has_a_variable_that_there_is(self):
        for seed in range(60):
            index = random_loops.draw_index(random.Random(seed), ("i",))
            self.assertRegex(index, r"\A(i([+-]\d)?|-?\d)\Z")
            self.assertNotIn("i", random_loops.draw_index(random.Random(seed), ()))


if __name__ == "__main__":
    unittest.main()
