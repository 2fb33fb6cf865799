"""In tools/: python3 -m unittest discover -s spanprof/imports/tests -t ."""
import os
import pathlib
import unittest
from unittest import mock

from spanprof.command import Fault
from spanprof.head import head_of
from spanprof.imports.folder import write
from spanprof.imports.tasks import Imported, Task
from spanprof.predict.predictions import text_of
from spanprof.predict.recorded import recorded
from spanprof.recording import document, open_recording
from spanprof.tests.in_folder import InFolder
from spanprof.time_breakdown import breakdown_of

TASKS = [Task("a.o", "", 100, 5100), Task("b.o", "", 100, 4100), Task("link", "", 5100, 6100, before=[0, 1])]


class Folder(InFolder):
    def made(self, reported):
        out = os.path.join(self.folder, "mine")
        self.why = write(self.write("mine.log", "log"), out, reported)
        return out + ".spanprof"

    def test_predictions_take_its_text_and_times(self):
        text = text_of(self.made(Imported("ninja", TASKS)))
        with mock.patch("spanprof.client.read", side_effect=lambda path: pathlib.Path(path).read_text("utf-8")):
            found = recorded(*text)
        self.assertEqual((found.work, found.threads, found.elapsed, found.outside, found.is_timed),
                         (10000, 2, 6000, 0, True))

    def test_its_document_has_text_and_times(self):
        recording = open_recording(self.made(Imported("ninja", TASKS)))
        with open(document(recording), encoding="utf-8") as file:
            text, times = file.read().split("---\n")
        self.assertIn("task depend(in: t0, t1) {  # link\nwork 1000\n}\n", text)
        self.assertEqual(times.split("\n")[0], "times 2 0 6000")
        reported = mock.Mock(side_effect=["threads 2\nelapsed 6000\nbusy 10000\ndelayed 0\nstarved 2000\noutside 0\n"])
        with mock.patch("spanprof.client.ask", reported):
            self.assertEqual(breakdown_of(head_of(recording.text), 10000, document(recording)).code, 10000)

    def test_of_several_builds_there_are_no_times(self):
        recording = open_recording(self.made(Imported("ninja", TASKS, "the log is of several builds")))
        self.assertEqual((recording.times, self.why), ("", "the log is of several builds"))
        self.assertIsNone(head_of(recording.text).threads)

    def test_one_that_is_damaged_can_be_imported_again(self):
        folder = self.made(Imported("ninja", TASKS))
        self.write(os.path.join(folder, "times"), "times 2 0 1\n")
        with self.assertRaisesRegex(Fault, "its checksum differs; record or import it again$"):
            open_recording(folder)

    def test_without_any_times_there_is_no_recording(self):
        with self.assertRaisesRegex(Fault, "mine.log: no task in it has times"):
            self.made(Imported("StarPU", [Task("sync")]))

    def test_where_nothing_can_be_written(self):
        with self.assertRaisesRegex(Fault, "there is no folder"):
            write(self.write("mine.log"), os.path.join(self.folder, "none", "x"), Imported("ninja", TASKS))


if __name__ == "__main__":
    unittest.main()
