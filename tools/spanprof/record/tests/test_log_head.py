import os
import unittest

from spanprof.record.folder import begun_at, process_of, usage_in_log
from spanprof.record.tests.log_heads import log_head
from spanprof.tests.in_folder import InFolder


class Heads(InFolder):
    def test_numbers(self):
        folder = os.path.join(self.folder, "mine.spanprof")
        log_head(folder, 12, range(1, 8), 34)
        self.assertEqual((begun_at(folder), process_of(folder)), (34, 12))
        self.assertEqual(usage_in_log(folder), {
            "user_ns": 1, "system_ns": 2, "minor_faults": 3, "peak_bytes": 4, "voluntary_switches": 5,
            "involuntary_switches": 6, "children_ns": 7})

    def test_none(self):
        """The log is of an earlier version, or of a process that was killed."""
        for name, usage in (("a", ()), ("b", [0] * 7)):
            log_head(os.path.join(self.folder, name), 12, usage)
            self.assertEqual(usage_in_log(os.path.join(self.folder, name)), {})
        self.assertEqual((begun_at(self.folder), process_of(self.folder)), (0, 0))


if __name__ == "__main__":
    unittest.main()
