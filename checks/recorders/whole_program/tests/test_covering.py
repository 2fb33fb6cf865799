"""What is held of the head of a whole program's text."""
import unittest

from covering import judged

WHOLE = '# whole program: {"regions": 1}\n# covers: {"text": %d, "program": 1000%s}\nomptasks 1\nwork 1\n'


class Covered(unittest.TestCase):
    def test_enough(self):
        self.assertEqual(judged(WHOLE % (950, "")), "")

    def test_less(self):
        self.assertEqual(judged(WHOLE % (949, "")), "it covers 94.9 %")

    def test_less_that_is_reported_otherwise(self):
        self.assertEqual(judged(WHOLE % (200, ', "at most": true')), "")

    def test_other_texts(self):
        self.assertEqual(judged('# region: {"number": 1, "of": 1}\nomptasks 1\n'), "it is not the whole program's")
        self.assertEqual(judged('# whole program: {"regions": 1}\nomptasks 1\n'), "it does not say what it covers")


if __name__ == "__main__":
    unittest.main()
