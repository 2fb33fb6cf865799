"""Versions in a repository and where the tools are installed."""
import os
import tempfile
import unittest
from unittest import mock

from install import add_commit
from spanprof import command


class Versions(unittest.TestCase):
    def setUp(self):
        self.folder = tempfile.TemporaryDirectory()
        self.addCleanup(self.folder.cleanup)
        self.path = os.path.join(self.folder.name, "VERSION")
        with open(self.path, "w", encoding="utf-8") as file:
            file.write("1.2.3\nlogic 0123456789abcdef\n")

    def at(self, name):
        return mock.patch.object(command, name, self.path)

    def test_in_a_clone(self):
        with self.at("IN_REPOSITORY"), mock.patch.object(command, "commit_of", lambda folder: "abc+"):
            self.assertEqual(command.version_of("mine"), "mine 1.2.3 (logic 0123456789abcdef, commit abc+)")

    def test_without_a_clone(self):
        with self.at("IN_REPOSITORY"), mock.patch.object(command, "commit_of", lambda folder: ""):
            self.assertEqual(command.version_of("mine"), "mine 1.2.3 (logic 0123456789abcdef)")

    def test_installed(self):
        add_commit(self.path, "abc")
        with self.at("INSTALLED"):
            self.assertEqual(command.version_of("mine"), "mine 1.2.3 (logic 0123456789abcdef, commit abc)")

    def test_no_clone_has_no_commit(self):
        self.assertEqual(command.commit_of(self.folder.name), "")


if __name__ == "__main__":
    unittest.main()
