"""What spanprof-convert makes of a recording."""
import json
import os
import unittest
from unittest import mock

from spanprof.record import convert_command
from spanprof.record.tests.log_heads import log_head
from spanprof.tests.in_folder import InFolder, answered
from spanprof.tests.recordings import TEXT, recording, write

MADE = """\
#!/bin/sh
echo "$SPANPROF_WHOLE $SPANPROF_UNIT $SPANPROF_REGION" > $2.asked
[ "$SPANPROF_REGION" = none ] && exit 0
printf '%s' > $2.tasks
echo times > $2.timed
echo times > $2.times
printf '{"message": "text", "file": "%%s.tasks", "tasks": 3, "segments": 5, "work": 9, "unit": "us"}\\n' "$2"
"""


class Converts(InFolder):
    def setUp(self):
        super().setUp()
        self.converter = self.program("convert", MADE % TEXT.replace("\n", "\\n"))
        self.recording = recording(self.folder)

    def convert(self, *words, converter=None):
        with mock.patch.object(convert_command, "converter", return_value=converter or self.converter), \
                mock.patch("signal.signal"):
            return answered(convert_command.main, list(words))

    def refused(self, *words, by=1):
        status, _, errors = self.convert(*words)
        self.assertEqual(status, by)
        return errors.splitlines()[-1]

    def names(self):
        return sorted(os.listdir(self.folder))

    def meta(self, name="mine"):
        with open(os.path.join(self.folder, name + ".spanprof", "recording.json"), encoding="utf-8") as file:
            return json.load(file)

    def test_the_text_anew(self):
        os.remove(os.path.join(self.recording, "times"))
        write(os.path.join(self.recording, "recording.json"), '{"schema": 1, "arguments": ["./mine"], "unit": "us"}')
        status, _, errors = self.convert(self.recording)
        self.assertEqual((status, self.meta()["arguments"]), (0, ["./mine"]))
        self.assertIn("mine.spanprof/program.tasks: 3 tasks, 5 segments", errors)
        self.assertEqual(sorted(self.meta()["files"]), ["log/head", "program.tasks", "times"])

    def test_a_program_that_was_built_since(self):
        built = os.stat(self.converter).st_mtime_ns
        for at, words in ((built - 1, "was built after this run: functions and lines may be wrong"), (built, "")):
            log_head(self.recording, program=os.fsencode(self.converter), at=at)
            _, _, errors = self.convert(self.recording)
            self.assertEqual("warning" in errors, bool(words))
            self.assertIn(words, errors)

    def test_another_recording(self):
        self.convert("--out", os.path.join(self.folder, "b"), self.recording)
        self.assertTrue(os.path.islink(os.path.join(self.folder, "b.spanprof", "log")))
        self.assertIn("program.tasks", self.meta("b")["files"])
        self.assertIn("b.spanprof is there already; --out names another",
                      self.refused("--out", os.path.join(self.folder, "b"), self.recording))

    def test_a_log_alone(self):
        write(os.path.join(self.folder, "old.log", "head"), "")
        self.assertEqual(self.convert(os.path.join(self.folder, "old.log") + os.sep)[0], 0)
        self.assertIn("program.tasks", self.meta("old")["files"])

    def test_a_region(self):
        out = os.path.join(self.folder, "b")
        _, _, errors = self.convert("--region", "mine.c:9", "--out", out, self.recording)
        self.assertEqual(errors, "".join("spanprof-convert: written: %s.%s\n" % (out, end)
                                         for end in ("tasks", "timed")))
        self.assertEqual([name for name in self.names() if name.startswith("b.")], ["b.tasks", "b.timed"])
        self.convert("--region", "mine.c:9", self.recording)
        self.assertIn("mine.region.tasks", self.names())
        self.assertIn("there is no region with tasks at none; those are at mine.c:9",
                      self.refused("--region", "none", self.recording))

    def test_printed(self):
        self.assertEqual(self.convert("--text", self.recording)[:2], (0, TEXT))
        before = self.names()
        self.assertEqual(self.convert("--text", "--region", "mine.c:9", self.recording)[:2], (0, TEXT))
        self.assertEqual(self.names(), before)

    def test_one_that_fails(self):
        before = self.names(), sorted(os.listdir(self.recording))
        failing = self.program("failing", "#!/bin/sh\necho half > $2.tasks\nkill -9 $$\n")
        for words in ((), ("--region", "mine.c:9")):
            status, _, errors = self.convert(*words, self.recording, converter=failing)
            self.assertEqual(status, 1)
            self.assertIn("log cannot be converted: its converter died: it was killed", errors)
        os.remove(failing)
        self.assertEqual((self.names(), sorted(os.listdir(self.recording))), before)

    def test_what_is_no_recording(self):
        wanted = "; a recording is the folder NAME.spanprof that spanprof-record leaves"
        text = self.write("a.tasks", "# a comment\n\nomptasks 1\nwork 1\n")
        self.assertEqual(self.refused(text), "spanprof-convert: %s: a program text already: spanprof-report "
                         "makes its page, spanprof-whatif changes it" % text)
        self.write("a.tasks", "x")
        for path, what in ((text, text + ": not a folder"), ("none.spanprof", "none.spanprof: no such folder"),
                           ("", "'': no such folder"), (self.folder, self.folder + ": there is no log in this folder")):
            self.assertEqual(self.refused(path), "spanprof-convert: " + what + wanted)

    def test_arguments_that_exclude_each_other(self):
        reported = self.refused("--out", "x/", self.recording, by=2)
        self.assertIn("--out x/: the name of a recording, and no folder", reported)

    def test_a_folder_that_is_not_there(self):
        self.assertIn("there is no folder /none", self.refused("--out", "/none/x", self.recording))


if __name__ == "__main__":
    unittest.main()
