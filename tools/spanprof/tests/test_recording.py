"""Which folders are recordings, whole and of one run."""
import io
import os
import unittest
from unittest import mock

from spanprof import recording
from spanprof.command import Fault
from spanprof.recording import program_of
from spanprof.tests.in_folder import InFolder
from spanprof.tests.recordings import TEXT, TIMES, recording as made, write

AGAIN = "spanprof-convert .*mine.spanprof writes it anew$"


class Folders(InFolder):
    def test_a_whole_one(self):
        folder = made(self.folder)
        found = recording.open_recording(folder + os.sep)
        self.assertEqual((found.name, found.text, found.meta["schema"]),
                         ("mine.spanprof", os.path.join(folder, "program.tasks"), 1))
        self.assertEqual((found.times, found.log), (os.path.join(folder, "times"), os.path.join(folder, "log")))
        self.assertEqual(found.stem, os.path.join(self.folder, "mine"))
        self.assertEqual([bool(found.file(name)) for name in ("regions", "scale.json")], [True, False])

    def test_by_the_text_in_it(self):
        folder = made(self.folder)
        text = os.path.join(folder, "program.tasks")
        self.assertEqual(recording.open_recording(text).folder, folder)
        self.assertEqual((recording.text_of(folder), recording.text_of("a.tasks")), (text, "a.tasks"))
        self.assertEqual([recording.shown_name(path) for path in (folder, text, "b/a.tasks")],
                         ["mine.spanprof", "mine.spanprof", "a.tasks"])
        self.assertEqual(program_of(text).places[0].name, "mine.c:9")

    def test_text_and_times_as_one_document(self):
        path = recording.document(recording.open_recording(made(self.folder)))
        with open(path, encoding="utf-8") as file:
            self.assertEqual(file.read(), TEXT + "---\n" + TIMES)
        without = recording.open_recording(made(self.folder, "other", times=None))
        self.assertEqual(recording.document(without), "")

    def refused(self, why):
        with self.assertRaisesRegex(Fault, why):
            recording.open_recording(os.path.join(self.folder, "mine.spanprof"))

    def test_one_that_was_cut_short(self):
        folder = made(self.folder)
        os.remove(os.path.join(folder, "times"))
        self.refused("not complete: times is missing; " + AGAIN)
        os.remove(os.path.join(folder, "recording.json"))
        self.refused("not complete, as it has no recording.json; " + AGAIN)

    def test_files_of_different_runs(self):
        folder = made(self.folder)
        write(os.path.join(folder, "times"), TIMES.replace("5000", "5001"))
        self.refused("times is not the file that was recorded: its checksum differs; " + AGAIN)

    def test_another_version(self):
        made(self.folder, schema=2)
        self.refused("a newer version of spanprof made this recording: its schema is 2, and this version reads 1")

    def test_damaged_facts(self):
        folder = made(self.folder)
        for words in ("{", "[]", "{}", "[" * 100000, '{"schema": 1, "files": 3}', '{"schema": "x", "files": {}}'):
            write(os.path.join(folder, "recording.json"), words)
            self.refused("recording.json is damaged: ")
        for fact in ('"threads": 5', '"usage": {"user_ns": "x"}', '"host": [1]', '"runs": 3', '"runs": [{}]',
                     '"unit": 7', '"elapsed_ns": NaN', '"children_ns": "x"', '"processors": 1e999', '"runtime": "gnu"',
                     '"true_one": [null]'):
            write(os.path.join(folder, "recording.json"), '{"schema": 1, "files": {}, %s}' % fact)
            self.refused("recording.json is damaged: ")

    def test_without_a_text(self):
        made(self.folder, **{"program.tasks": None, "times": None})
        self.refused("has a log and no text; " + AGAIN)


class PlainTexts(InFolder):
    def test_times_of_the_same_run(self):
        text = self.write("mine.tasks", TEXT)
        self.assertEqual(recording.open_recording(text), recording.Recording(text))
        timed = self.write("mine.timed", TEXT + "---\n" + TIMES)
        self.assertEqual(recording.document(recording.open_recording(text)), timed)

    def test_times_of_another_run(self):
        text = self.write("mine.tasks", TEXT)
        self.write("mine.timed", TEXT.replace("00:10:02", "00:10:03") + "---\n" + TIMES)
        self.assertEqual(recording.open_recording(text).times, "")

    def test_a_text_of_that_name_alone(self):
        text = self.write("program.tasks", TEXT)
        self.assertEqual(recording.folder_of(text), "")


class Given(unittest.TestCase):
    def test_standard_input_is_a_text(self):
        recording.given_text.cache_clear()
        with mock.patch("sys.stdin", io.TextIOWrapper(io.BytesIO(b"omptasks 1\n"))):
            path = recording.text_of("-")
        with open(path, "rb") as file:
            self.assertEqual(file.read(), b"omptasks 1\n")
        self.assertEqual(recording.text_of("-"), path)


if __name__ == "__main__":
    unittest.main()
