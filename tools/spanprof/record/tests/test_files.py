import os
import unittest
from unittest import mock

from spanprof import converting
from spanprof.command import Fault
from spanprof.converting import recorder_library
from spanprof.record.folder import check_folder
from spanprof.tests.in_folder import InFolder


class OfARecording(InFolder):
    def setUp(self):
        super().setUp()
        self.out = os.path.join(self.folder, "mine")


class Recordings(OfARecording):
    def test_a_folder_that_is_none(self):
        with self.assertRaisesRegex(Fault, "no folder"):
            check_folder(os.path.join(self.out, "x"))


class Recorder(OfARecording):
    def library(self, *folders, tell=print):
        with mock.patch("spanprof.converting.RECORDERS", [os.path.join(self.folder, name) for name in folders]):
            return recorder_library(tell)

    def test_the_one_that_is_built(self):
        library = self.write("b/librecorder.so")
        self.assertEqual(self.library("a", "b"), library)

    def test_none(self):
        with self.assertRaisesRegex(Fault, "neither in .*nowhere"):
            self.library("nowhere")

    def test_it_is_built_where_it_is_missing_or_old(self):
        library, source = self.write("r/librecorder.so"), self.write("r/life.cpp")
        self.write("r/Makefile")
        reported = []
        with mock.patch("spanprof.converting.build") as build:
            os.utime(library, (2e9, 2e9))
            self.library("r", tell=reported.append)
            build.assert_not_called()
            os.utime(source, (2.1e9, 2.1e9))
            self.library("r", tell=reported.append)
            build.assert_called_once()
        self.assertEqual(len(reported), 1)

    def test_why_not(self):
        words = "make: Entering\nclang++-16 -O2\nmake: clang++-16: No such file or directory\nmake: *** Error 127\n"
        self.assertEqual(converting.why_not_built(words), "make: clang++-16: No such file or directory")
        self.assertEqual(converting.why_not_built(""), "no word of it")


if __name__ == "__main__":
    unittest.main()
