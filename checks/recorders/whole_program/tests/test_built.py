"""What is true of whole programs."""
import unittest

from built import MANY, SHAPES, beginning_with, faults_of_numbers

BY_NAME = {shape.name: shape for shape in SHAPES}


class Built(unittest.TestCase):
    def test_work_and_span_of_stages(self):
        shape = BY_NAME["all_kinds"]
        self.assertEqual((shape.work, shape.least(MANY)), (79, 26))

    def test_no_end_is_before_the_span_or_the_share_of_the_work(self):
        for shape in SHAPES:
            for threads in (1, 2, 4, 8):
                self.assertGreaterEqual(shape.least(threads), max(shape.least(MANY), shape.work / threads), shape.name)

    def test_one_thread_takes_all_the_work(self):
        for shape in SHAPES:
            self.assertEqual(shape.least(1), shape.work, shape.name)

    def test_turns_that_wait_for_each_other(self):
        self.assertEqual(BY_NAME["in_order"].least(MANY), 19)
        self.assertEqual(BY_NAME["before_the_wait"].least(MANY), 20)
        self.assertEqual(BY_NAME["wavefront"].least(MANY), 15)

    def test_a_few_per_cent_are_no_fault(self):
        shape = BY_NAME["loop"]
        self.assertEqual(list(faults_of_numbers(shape, 4, 106, 43)), [])
        self.assertEqual(list(faults_of_numbers(shape, 4, 104, 52)), ["span 52.00, and 42.00 was built in"])
        self.assertEqual(list(faults_of_numbers(shape, 1, 104, 104)), [])

    def test_code_before(self):
        shape = beginning_with(BY_NAME["loop"], 3)
        self.assertEqual((shape.work, shape.least(4)), (107, 59))


if __name__ == "__main__":
    unittest.main()
