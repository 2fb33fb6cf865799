"""In tools/: python3 -m unittest discover -s spanprof/front/tests -t ."""
import os
import signal
import subprocess
import sys
import unittest

from spanprof.tests.in_folder import InFolder

FRONT = os.path.join(os.path.dirname(os.path.abspath(__file__)), "..", "..", "..", "bin", "spanprof")
PROGRAM = """#!/bin/sh
case $1 in
    slack) cat; exit 0 ;;
    show) echo 'error: line 2: BadWord'; exit 1 ;;
    check) kill -TERM $$ ;;
    *) echo 'error: wrong words'; exit 2 ;;
esac
"""


class Command(InFolder):
    def setUp(self):
        super().setUp()
        self.asked = self.program("program", PROGRAM)

    def run_with(self, *words, given=b"a\0b", name=FRONT, **variables):
        done = subprocess.run([sys.executable, "-B", name, *words], input=given, capture_output=True, check=False,
                              env={**os.environ, "SPANPROF": self.asked, "SPANPROF_LARGE": self.asked, **variables})
        return done.returncode, done.stdout, done.stderr.decode()

    def test_bytes_and_status(self):
        self.assertEqual(self.run_with("slack"), (0, b"a\0b", ""))
        status, out, reported = self.run_with("show", given=b"omptasks 1\ntasks { }\n")
        self.assertEqual((status, out), (1, b"error: line 2: BadWord\n"))
        self.assertIn("standard input:2: BadWord", reported)
        self.assertEqual(self.run_with("none")[:2], (2, b"error: wrong words\n"))

    def test_a_signal(self):
        self.assertEqual(self.run_with("check")[0], -signal.SIGTERM)

    def test_the_other_program(self):
        self.assertEqual(self.run_with("bounds"), (2, b"error: wrong words\n", ""))

    def test_no_program(self):
        for command, variables in (("slack", {"SPANPROF": "/none"}), ("bounds", {"SPANPROF_LARGE": "/none"})):
            status, out, reported = self.run_with(command, **variables)
            self.assertEqual((status, out), (127, b""))
            self.assertIn("/none: No such file or directory; README.md says how to build it", reported)

    def test_help_and_version(self):
        self.assertTrue(self.run_with("--help")[1].startswith(b"Usage: spanprof COMMAND"))
        self.assertTrue(self.run_with("help", "slack")[1].startswith(b"Usage: spanprof slack"))
        self.assertTrue(self.run_with("help", "path")[1].startswith(b"usage: spanprof-path"))
        self.assertEqual(self.run_with("help", "none")[:2], (2, b""))
        self.assertRegex(self.run_with("--version")[1], rb"^spanprof [0-9.]+ \(logic ")

    def test_a_locale_of_another_encoding(self):
        variables = {"LC_ALL": "C", "PYTHONCOERCECLOCALE": "0", "PYTHONUTF8": "0"}
        self.assertIn("no command `ä`", self.run_with("help", "ä", **variables)[2])

    def test_a_link_is_its_command(self):
        link = os.path.join(self.folder, "spanprof-path")
        os.symlink(os.path.realpath(FRONT), link)
        self.assertTrue(self.run_with("--help", name=link)[1].startswith(b"usage: spanprof-path"))


if __name__ == "__main__":
    unittest.main()
