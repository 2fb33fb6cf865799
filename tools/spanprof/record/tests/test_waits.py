import unittest

from spanprof.record.command import Waits, waited_for, waits_line, waits_of
from spanprof.recording import open_recording
from spanprof.tests.in_folder import InFolder
from spanprof.tests.recordings import recording

CALLS = "0 ran 90000 main;PMPI_Init\n0 slept 20000 main;MPI_Allreduce\n1 ran 30000 main;PMPI_Waitall\n" \
    "1 ran 9000 relax\n"


def of(*times):
    """Of ranks that wait for so many milliseconds, of a second each."""
    return [Waits(rank, 1000 * time, 1000000) for rank, time in enumerate(times)]


class Recorded(InFolder):
    def test_samples_in_calls_that_wait(self):
        found = waits_of(open_recording(recording(self.folder, "mine.rank3", calls=CALLS)))
        self.assertEqual(found, Waits(3, 50000, 149000))

    def test_what_is_no_rank_or_has_no_samples(self):
        for name, calls in ("mine", CALLS), ("mine.rank12", None), ("mine.rank2", ""):
            self.assertIsNone(waits_of(open_recording(recording(self.folder, name, calls=calls))))


class Compared(unittest.TestCase):
    def test_one_that_hardly_waits(self):
        waits = of(500, 8, 400, 600)
        self.assertEqual(waited_for(waits), waits[1])
        self.assertEqual(waits_line(waits), "the others wait for rank 1: 400 ms to 600 ms in calls of MPI, it 8.00 ms")

    def test_all_alike(self):
        self.assertIsNone(waited_for(of(500, 400, 550)))
        self.assertEqual(waits_line(of(500, 400, 550)),
                         "each waits in calls of MPI: 400 ms to 550 ms, none much less than the others")

    def test_little(self):
        for waits in of(40, 0, 30), of(0, 0), of(700), []:
            self.assertIsNone(waited_for(waits))
            self.assertEqual(waits_line(waits), "")


if __name__ == "__main__":
    unittest.main()
