import os
import re
import unittest

import sentences

TOP = os.path.join(os.path.dirname(sentences.__file__), "..", "..", "..")

# Lines that say nothing which the truth of a program could refute.
CLAIM_NOTHING = ("program", "tasks", "runs", "both clocks", "breakdown", "span by place", "other ranks", "losses",
                 "counters")


class Names(unittest.TestCase):
    def test_each_line_of_a_summary_is_read_or_claims_nothing(self):
        with open(os.path.join(TOP, "tools", "spanprof", "record", "summary.py"), encoding="utf-8") as file:
            names = re.findall(r'named\("([^"]+)"', file.read())
        with open(sentences.__file__, encoding="utf-8") as file:
            source = file.read()
        self.assertIn("span", names)
        for name in names:
            self.assertTrue(name in CLAIM_NOTHING or '"%s"' % name in source,
                            "sentences.py does not read the line %r, and CLAIM_NOTHING here does not name it" % name)


if __name__ == "__main__":
    unittest.main()
