"""In tools/: python3 -m unittest discover -s spanprof/report/tests -t ."""
import unittest

from spanprof.command import Fault
from spanprof.recording import open_recording
from spanprof.report.exports import folded, stacks
from spanprof.tests.in_folder import InFolder
from spanprof.tests.recordings import recording

CALLS = "0 ran 4000 main;sort;less<a, b>\n3 ran 8000 main;sort;less<a, b>\n" \
    "3 ran 1000 main;sort\n1 slept 50 main;read@libc\n"


class Stacks(InFolder):
    def found(self):
        return stacks(open_recording(recording(self.folder, calls=CALLS)))

    def test_times_of_calls_are_added_up(self):
        self.assertEqual(folded(self.found()),
                         "main;read@libc;[asleep] 50\nmain;sort 1000\nmain;sort;less<a, b> 12000\n")

    def test_faults(self):
        with self.assertRaisesRegex(Fault, "mine.spanprof: it has no samples of calls"):
            stacks(open_recording(recording(self.folder)))
        with self.assertRaisesRegex(Fault, "calls is damaged"):
            stacks(open_recording(recording(self.folder, name="cut", calls="0 ran\n")))


if __name__ == "__main__":
    unittest.main()
