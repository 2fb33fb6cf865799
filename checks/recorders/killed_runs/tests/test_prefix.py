import unittest

from prefix import WAIT, count, is_prefix, read

TEXT = """# recorded: {"program": "x"}
omptasks 1
work 3
task {  # x.c:4
  work 1
  task {
  }
  taskwait
}
task depend(in: a0) {
}
taskwait
"""


class Texts(unittest.TestCase):
    def test_steps(self):
        self.assertEqual(read(TEXT), [[[], WAIT], [], WAIT])
        self.assertEqual(count(read(TEXT)), 3)

    def test_prefixes(self):
        whole = read(TEXT)
        for some in ([], [[]], [[[]]], [[[], WAIT]], [[], []], whole):
            self.assertTrue(is_prefix(some, whole), some)
        for other in ([WAIT], [[WAIT]], [[[[]]]], [[], [], WAIT, []], [[], [[]]]):
            self.assertFalse(is_prefix(other, whole), other)


if __name__ == "__main__":
    unittest.main()
