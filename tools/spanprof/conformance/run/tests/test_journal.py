"""The state of a test."""
import pathlib
import tempfile
import unittest

from spanprof.conformance.run.campaign import Journal, OtherCampaign, path_of

TESTED = {"compiler": "cc", "threads": "2, 4"}


class Journals(unittest.TestCase):
    def setUp(self):
        folder = tempfile.TemporaryDirectory()
        self.addCleanup(folder.cleanup)
        self.folder = folder.name
        self.path = path_of(TESTED, self.folder)

    def open(self, tested=None):
        journal = Journal(tested or TESTED, self.folder)
        self.addCleanup(journal.close)
        return journal

    def test_lines_are_there_again_until_the_test_is_whole(self):
        first = self.open()
        self.assertEqual(first.lines, [])
        first.add({"name": "a"})
        self.assertTrue(self.path.read_bytes().endswith(b"\n"))
        first.close()
        again = self.open()
        self.assertEqual(again.lines, [{"name": "a"}])
        again.close(is_whole=True)
        self.assertFalse(self.path.exists())

    def test_line_that_was_cut_short(self):
        journal = self.open()
        journal.add({"name": "a"})
        journal.add({"name": "b"})
        journal.close()
        whole = self.path.read_bytes()
        for cut in range(whole.rindex(b"\n", 0, -1) + 2, len(whole)):
            self.path.write_bytes(whole[:cut])
            again = Journal(TESTED, self.folder)
            self.assertEqual(again.lines, [{"name": "a"}])
            again.add({"name": "b"})
            again.close()
            self.assertEqual(self.path.read_bytes(), whole)

    def test_another_test_has_another_file(self):
        self.assertNotEqual(path_of({**TESTED, "threads": "8"}, self.folder), self.path)
        self.assertEqual(pathlib.Path(self.folder), self.path.parent)

    def test_two_processes(self):
        self.open()
        with self.assertRaisesRegex(OtherCampaign, "another process makes the same test"):
            Journal(TESTED, self.folder)


if __name__ == "__main__":
    unittest.main()
