"""Tests of what is drawn; they need no program: python3 -m unittest test_random_programs in checks/agree."""
import random
import unittest

import random_logs
import random_programs


class Drawing(unittest.TestCase):
    def test_same_seed_same_program(self):
        self.assertEqual(random_programs.draw(7), random_programs.draw(7))
        self.assertNotEqual(random_programs.draw(7), random_programs.draw(8))

    def test_blocks_are_closed(self):
        for seed in range(50):
            text = random_programs.draw(seed)
            self.assertEqual(text.count("{"), text.count("}"))
            self.assertTrue(text.startswith("omptasks 1\n"))


class Logs(unittest.TestCase):
    def test_a_run_in_order(self):
        self.assertEqual(random_logs.written(random_logs.in_order(2)),
                         "start 0 0\nfinish 0 0\nstart 0 1\nfinish 0 1\n")

    def test_logs_differ(self):
        drawn = {random_logs.draw_document(random.Random(seed), "", 4) for seed in range(50)}
        self.assertGreater(len(drawn), 40)
        self.assertIn("", drawn)

    def test_events_are_words_and_numbers(self):
        for seed in range(50):
            for verb, worker, segment in random_logs.draw_events(random.Random(seed), 3):
                self.assertIn(verb, ("start", "finish"))
                self.assertTrue(0 <= worker <= 64 and 0 <= segment <= 4)


class Numbers(unittest.TestCase):
    def test_independent(self):
        text, numbers = random_programs.independent(3)
        self.assertEqual(text.count("task {"), 3)
        self.assertEqual(numbers, (3, 8, 6, 2))

    def test_chain(self):
        self.assertEqual(random_programs.chain(4)[1], (4, 9, 8, 8))

    def test_nested(self):
        text, numbers = random_programs.nested(2)
        self.assertEqual(text, "omptasks 1\ntask { work 1\ntask { work 1\ntaskwait }\ntaskwait }\n")
        self.assertEqual(numbers, (2, 7, 2, 2))

    def test_tree(self):
        text, numbers = random_programs.tree(3)
        self.assertEqual(text.count("task {"), 7)
        self.assertEqual(text.count("taskwait"), 3)
        self.assertEqual(numbers, (7, 18, 7, 3))


if __name__ == "__main__":
    unittest.main()
