"""What of a text is the program's own beginning and end."""
import unittest

from judge import around, reported_of_tasks, reported_threads
from built import SHAPES


class Around(unittest.TestCase):
    def test_before_the_first_block_and_after_the_last(self):
        text = "# work 9\nomptasks 1\nwork 2500\ntaskgroup {\n  work 7\n}\nwork 9\ntask {\n}\nwork 500\n"
        self.assertEqual(around(text), 3)

    def test_a_text_without_blocks(self):
        self.assertEqual(around("omptasks 1\nwork 2000\n"), 2)

    def test_a_program_that_asks_for_its_threads(self):
        nested = next(shape for shape in SHAPES if shape.name == "nested")
        self.assertEqual(reported_threads(nested), [4])

    def test_tasks_that_a_program_has_not(self):
        lines = ["cause  too few tasks: for 70 %", "first change  the beginning in 4 tasks, if it can be divided",
                 "98.1 % of the span: turns of the loop at a.c:3", "0.1 % of the span: after taskgroup at a.c:3"]
        shapes = [shape for shape in SHAPES if shape.name in ("loop", "all_kinds")]
        reported = {shape.name: reported_of_tasks(lines, shape) for shape in shapes}
        self.assertEqual(reported, {"loop": ["it has no tasks: " + lines[0], "it has no tasks: " + lines[3]],
                                    "all_kinds": []})


if __name__ == "__main__":
    unittest.main()
