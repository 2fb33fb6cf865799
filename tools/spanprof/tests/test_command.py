"""What the commands share: how they end, and where programs are looked for."""
import contextlib
import io
import os
import re
import signal
import subprocess
import sys
import unittest
from unittest import mock

from spanprof import folders
from spanprof.command import INTERRUPTED, Console, Fault, check_files, end_with, leave, naming, show, writing
from spanprof.tests.in_folder import InFolder, answered


class Ends(unittest.TestCase):
    def ended(self, **how):
        with mock.patch("signal.signal"):
            return answered(lambda words: end_with(Console("mine"), mock.Mock(**how)), [])

    def test_each_way(self):
        self.assertEqual(self.ended(), (0, "", ""))
        self.assertEqual(self.ended(side_effect=Fault("no room")), (1, "", "mine: no room\n"))
        self.assertEqual(self.ended(side_effect=FileNotFoundError(2, "No such file", "a.c")),
                         (1, "", "mine: a.c: No such file\n"))
        self.assertEqual(self.ended(side_effect=OSError("odd")), (1, "", "mine: odd\n"))
        self.assertEqual(self.ended(side_effect=OSError(28, "No space left on device")),
                         (1, "", "mine: standard output: No space left on device\n"))
        self.assertEqual(self.ended(side_effect=KeyboardInterrupt), (INTERRUPTED, "", ""))

    def test_the_status_of_another_command(self):
        with mock.patch("signal.signal"):
            self.assertEqual(answered(lambda words: end_with(Console("mine"), mock.Mock(side_effect=Fault("no room")),
                                                             status=125), []), (125, "", "mine: no room\n"))

    def test_help_without_room_is_reported(self):
        def full():
            return open("/dev/full", "w", encoding="utf-8")     # which is written when it is flushed

        def help_and_end():
            print("usage: mine")
            raise SystemExit(0)
        with full() as out, mock.patch("sys.stdout", out), mock.patch("signal.signal"), \
                self.assertRaises(SystemExit) as ended, contextlib.redirect_stderr(io.StringIO()) as reported:
            end_with(Console("mine"), help_and_end)
        self.assertEqual((ended.exception.code, reported.getvalue()),
                         (1, "mine: standard output: No space left on device\n"))

    def test_standard_error_without_room_or_closed_changes_no_status(self):
        with open("/dev/full", "w", encoding="utf-8") as full, mock.patch("sys.stderr", full):
            show(["words"])
            leave(full)

        def fail():
            self.addCleanup(sys.stderr.close)
            raise Fault("no room")
        with mock.patch("sys.stderr", None), mock.patch("signal.signal"), self.assertRaises(SystemExit) as ended:
            end_with(Console("mine"), fail, status=3)
        self.assertEqual(ended.exception.code, 3)


class Files(InFolder):
    def test_the_text_has_to_be_there_and_stays(self):
        text = self.write("mine.tasks")
        check_files(text, os.path.join(self.folder, "other.tasks"))
        with self.assertRaisesRegex(Fault, "none.tasks: no such file"):
            check_files("none.tasks")
        with self.assertRaisesRegex(Fault, "the burdened text would be written over the text"):
            check_files(text, os.path.join(self.folder, ".", "mine.tasks"), "burdened text")
        with self.assertRaisesRegex(Fault, "^'': no such file$"):
            check_files("")
        with self.assertRaisesRegex(Fault, "^/dev/null: write the text to a file first"):
            check_files("/dev/null")
        with self.assertRaisesRegex(Fault, "not a recording, which is a folder NAME.spanprof$"):
            check_files(self.folder)
        self.write("head")
        with self.assertRaisesRegex(Fault, "the log of a recording; spanprof-convert makes its text"):
            check_files(self.folder)
        pipe = os.path.join(self.folder, "pipe")
        os.mkfifo(pipe)
        with self.assertRaisesRegex(Fault, "pipe: write the text to a file first"):
            check_files(pipe)

    def test_a_file_without_room_is_named(self):
        with self.assertRaisesRegex(Fault, "^/dev/full: No space left on device$"), naming("/dev/full"), \
                open("/dev/full", "w", encoding="utf-8") as file:
            file.write("words")

    def test_a_variable_that_is_no_line_of_words(self):
        with mock.patch.dict(os.environ, {"SPANPROF": "'"}), \
                self.assertRaisesRegex(Fault, "^SPANPROF=': no closing quotation$"):
            folders.words_for("spanprof", [])

    def test_the_order_in_which_programs_are_looked_for(self):
        place = self.program("spanprof_large", "")
        with mock.patch.dict(os.environ, {"SPANPROF_LARGE": "rt run --"}):
            self.assertEqual(folders.words_for("spanprof_large", [place]), ["rt", "run", "--"])
        with mock.patch.dict(os.environ, {"SPANPROF_LARGE": ""}), \
                mock.patch("shutil.which", side_effect=("/a", None, None)):
            self.assertEqual([folders.words_for("spanprof_large", places) for places in ([place], [place], [])],
                             [["/a"], [place], []])


class Signals(unittest.TestCase):
    def test_one_that_ends_the_process_leaves_no_files(self):
        program = "import os, signal\nfrom spanprof.command import end_without_files\n" \
            "from spanprof.recording import made_folder\nend_without_files()\n" \
            "print(made_folder(), flush=True)\nos.kill(os.getpid(), signal.%s)"
        for name in ("SIGTERM", "SIGPIPE"):
            done = subprocess.run([sys.executable, "-B", "-c", program % name], stdout=subprocess.PIPE, text=True,
                                  cwd=folders.TOOLS, check=False)
            self.assertEqual(done.returncode, -signal.Signals[name])
            self.assertFalse(os.path.exists(done.stdout.strip()))


class Writing(InFolder):
    def test_a_file_has_its_name_once_it_is_whole(self):
        path = os.path.join(self.folder, "page")
        with writing(path) as file:
            file.write("whole")
            self.assertFalse(os.path.exists(path))
        with self.assertRaises(ValueError), writing(path) as file:
            file.write("half")
            raise ValueError
        with open(path, encoding="utf-8") as file:
            self.assertEqual(file.read(), "whole")
        self.assertEqual(os.listdir(self.folder), ["page"])

    def test_what_cannot_be_written(self):
        with self.assertRaisesRegex(Fault, "^%s/no/x: No such file or directory$" % re.escape(self.folder)), \
                writing(os.path.join(self.folder, "no", "x")):
            pass
        with self.assertRaisesRegex(Fault, "^/dev/full: No space left on device$"), writing("/dev/full") as file:
            file.write("words")


if __name__ == "__main__":
    unittest.main()
