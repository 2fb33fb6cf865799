"""How long a command took."""
import subprocess
import sys
import unittest

from spanprof.conformance.run.campaign import Took, taken


class Times(unittest.TestCase):
    def test_words(self):
        self.assertEqual(Took(140.4, 58, 137.6).reported(),
                         "Took 140 s, and 196 s of processor time: 138 s of compilers, "
                         "programs and spanprof, 58 s of the tester.")

    def test_what_children_took_counts(self):
        before = taken()
        subprocess.run([sys.executable, "-c", "for _ in range(1000000): pass"], check=True)
        after = taken()
        self.assertGreater(after.started, before.started)
        self.assertGreater(after.wall, before.wall)


if __name__ == "__main__":
    unittest.main()
