"""What is made of a log, and what is left where that goes wrong."""
import os
import unittest
from unittest import mock

from spanprof import converting
from spanprof.command import Fault
from spanprof.recording import open_recording
from spanprof.tests.in_folder import InFolder
from spanprof.tests.recordings import recording


class Converters(InFolder):
    """The converter is a script, which has the log as $1 and the first name of its texts as $2."""

    def converter(self, words):
        return self.program("convert", "#!/bin/sh\n%s\n" % words)

    def convert(self, words, variables=()):
        return converting.convert(self.converter(words), "a/log", "b", dict(os.environ, **dict(variables)))

    def test_what_it_tells(self):
        reported = self.convert("echo \"{\\\"message\\\": \\\"$1 $2 ${LD_PRELOAD-none}\\\"}\"", {"LD_PRELOAD": "/x.so"})
        self.assertEqual(reported, [{"message": "a/log b none"}])

    def test_why_it_failed(self):
        for words, what in (("exit 3", "its converter ended with status 3"),
                            ("kill -9 $$", "its converter died: it was killed, as the system does where memory is "
                                           "short"),
                            ("kill -XFSZ $$", "its converter died: a file would be longer than `ulimit -f` allows"),
                            ("kill -ABRT $$", "its converter died: signal 6")):
            self.assertEqual(self.convert(words), [{"message": "fault", "log": "a/log", "what": what}])

    def into(self, folder, words):
        return converting.convert_into(self.converter(words), "a/log", folder, dict(os.environ))

    def test_how_far_it_is(self):
        shown = mock.Mock()
        for share in (0.25, 1.2):
            converting.show_how_far(shown, "a.spanprof", share)
            shown.at.assert_called_with({0.25: 0.25}.get(share))
        self.assertEqual(shown.name, "writing the texts of a.spanprof")

    def test_texts_come_into_the_folder(self):
        folder = recording(self.folder)
        reported = self.into(folder, 'echo new > $2.tasks; echo off > $2.off\n'
                                     'echo "{\\"message\\": \\"text\\", \\"file\\": \\"$2.tasks\\"}"')
        self.assertEqual(reported, [{"message": "text", "file": os.path.join(folder, "program.tasks")}])
        self.assertEqual(sorted(os.listdir(folder)), ["log", "off", "program.tasks", "recording.json"])

    def test_one_that_dies_changes_nothing(self):
        folder = recording(self.folder)
        before = sorted(os.listdir(folder))
        reported = self.into(folder, "echo half > $2.tasks; kill -9 $$")
        self.assertTrue(converting.has_failed(reported))
        self.assertEqual(sorted(os.listdir(folder)), before)
        self.assertTrue(open_recording(folder).text)

    def test_a_line_that_is_cut(self):
        reported = self.convert("printf '{\"message\": \"te'; kill -9 $$")
        self.assertEqual([one["message"] for one in reported], ["fault"])


class Regions(InFolder):
    def text(self, place, made=True):
        def convert(program, log, out, variables):
            if made:
                with open(out + ".tasks", "w", encoding="utf-8") as file:
                    file.write(variables["SPANPROF_REGION"] + " " + variables["SPANPROF_UNIT"])
        with mock.patch("spanprof.converting.converter", return_value="/convert"), \
                mock.patch("spanprof.converting.convert", convert):
            return converting.region_text(open_recording(recording(self.folder)), place)

    def test_of_a_place(self):
        with open(self.text("mine.c:9"), encoding="utf-8") as file:
            self.assertEqual(file.read(), "mine.c:9 us")

    def test_none(self):
        with self.assertRaisesRegex(Fault, "no region with tasks at x.c:1; those are at mine.c:9"):
            self.text("x.c:1", False)


if __name__ == "__main__":
    unittest.main()
