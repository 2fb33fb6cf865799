import hashlib
import os
import unittest
from unittest import mock

from spanprof import checksums, client
from spanprof.tests.in_folder import InFolder

CLAIM = "proved of the text"


class Programs(InFolder):
    def setUp(self):
        super().setUp()
        self.path = self.program("spanprof", "#!/bin/sh\necho span 3\n")
        client.not_proved.cache_clear()
        self.addCleanup(client.not_proved.cache_clear)

    def checksum(self, name="spanprof"):
        with open(self.path, "rb") as file:
            self.write("spanprof.sha256", "%s  %s\n" % (hashlib.sha256(file.read()).hexdigest(), name))

    def said(self, words):
        with mock.patch.dict(os.environ, SPANPROF_LARGE=words):
            return client.proved(CLAIM)

    def test_a_program_with_its_checksum(self):
        self.checksum()
        self.assertEqual(self.said(self.path), CLAIM)

    def test_by_a_link_and_by_the_path(self):
        self.checksum()
        os.makedirs(os.path.join(self.folder, "bin"))
        os.symlink(self.path, os.path.join(self.folder, "bin", "other"))
        with mock.patch.dict(os.environ, PATH=os.path.join(self.folder, "bin")):
            self.assertEqual(self.said("other"), CLAIM)

    def test_no_checksum(self):
        self.assertEqual(self.said(self.path), "computed by spanprof, not verified")

    def test_another_program_under_its_name(self):
        self.checksum()
        self.program("spanprof", "#!/bin/sh\necho span 4\n")
        self.assertEqual(self.said(self.path), "computed by spanprof, not verified")

    def test_the_checksum_of_another_name(self):
        for name in ("spanprof_large", "spanprof more"):
            self.checksum(name)
            self.assertFalse(checksums.is_proved(self.path), name)

    def test_what_is_no_checksum(self):
        for words in ("", "\x00\x7f", "é", "0 1 2"):
            self.write("spanprof.sha256", words)
            self.assertFalse(checksums.is_proved(self.path), words)

    def test_a_stub_that_asks_the_program(self):
        self.checksum()
        stub = self.program("bin/liar", "#!/bin/sh\n%s \"$@\" | sed 's/3/2/'\n" % self.path)
        self.assertEqual(self.said(stub), "computed by liar, not verified")

    def test_words_before_the_program(self):
        self.checksum()
        self.assertEqual(self.said("/usr/bin/env " + self.path), "computed by env spanprof, not verified")

    def test_a_program_that_is_not_there(self):
        self.assertEqual(self.said("/none/spanprof"), "computed by spanprof, not verified")

    def test_the_reference_implementation(self):
        with mock.patch("spanprof.folders.REFERENCE", self.folder):
            self.assertEqual(self.said(self.path), "computed by the reference implementation, not verified")

    def test_it_is_read_once_in_a_run(self):
        self.checksum()
        with mock.patch("spanprof.checksums.is_proved", return_value=True) as read:
            self.assertEqual([self.said(self.path) for _ in range(3)], [CLAIM] * 3)
        self.assertEqual(read.call_count, 1)


if __name__ == "__main__":
    unittest.main()
