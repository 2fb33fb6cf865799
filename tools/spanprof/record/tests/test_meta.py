"""What recording.json tells."""
import json
import os
import unittest

from spanprof.command import Fault
from spanprof.record.folder import old_meta, write_meta
from spanprof.recording import open_recording
from spanprof.tests.in_folder import InFolder
from spanprof.tests.recordings import recording, write


class Facts(InFolder):
    def setUp(self):
        super().setUp()
        self.recording = recording(self.folder)
        write(os.path.join(self.recording, "log", "modules"),
              "55d0 0 4000 module \n7f00 0 9000 runtime /usr/lib/llvm-19/lib/libomp.so.5\n")

    def test_each(self):
        os.remove(os.path.join(self.recording, "recording.json"))
        reported = write_meta(self.recording,
                              {"arguments": ["./mine", "5"], "threads": {"asked": 4}, "elapsed_ns": 120})
        with open(os.path.join(self.recording, "recording.json"), encoding="utf-8") as file:
            self.assertEqual(json.load(file), reported)
        self.assertEqual((reported["schema"], reported["program"], reported["arguments"], reported["unit"],
                          reported["clock"]),
                         (1, "mine", ["./mine", "5"], "us", "wall"))
        self.assertEqual((reported["threads"], reported["elapsed_ns"], reported["coverage"]),
                         ({"asked": 4, "most": 4}, 120, 0.95))
        self.assertEqual(reported["runtime"], {"name": "llvm", "version": "19",
                                               "library": "/usr/lib/llvm-19/lib/libomp.so.5"})
        self.assertEqual(sorted(reported["files"]), ["log/head", "log/modules", "program.tasks", "regions", "times"])

    def test_the_folder_can_be_opened(self):
        write_meta(self.recording, {})
        self.assertTrue(open_recording(self.recording).times)

    def test_a_file_that_cannot_be_written(self):
        with self.assertRaisesRegex(Fault, "recording.json: No such file or directory"):
            write_meta(os.path.join(self.folder, "none"), {})

    def test_what_an_earlier_one_tells(self):
        self.assertEqual(old_meta(self.recording)["unit"], "us")
        write(os.path.join(self.recording, "recording.json"), "[")
        self.assertEqual(old_meta(self.recording), {})


if __name__ == "__main__":
    unittest.main()
