import os
import tempfile
import unittest

from spanprof.report.tests.worked import FOLDER
from spanprof.source_lines import Sources


class Files(unittest.TestCase):
    def test_a_file_that_is_there(self):
        self.assertIn("cell(i);", "".join(Sources([FOLDER]).lines_of("mesh.c")))
        self.assertEqual(Sources([FOLDER]).lines_of("other.c"), [])

    def test_a_name_that_two_files_have_is_not_guessed_at(self):
        with tempfile.TemporaryDirectory() as folder:
            for name in ("a", "b"):
                os.mkdir(os.path.join(folder, name))
                with open(os.path.join(folder, name, "x.c"), "w", encoding="utf-8") as file:
                    file.write(name)
            self.assertEqual(Sources([folder]).lines_of("x.c"), [])
            self.assertEqual(Sources([os.path.join(folder, "a")]).lines_of("x.c"), ["a"])
            known = {"x.c": os.path.join(folder, "a", "x.c")}
            self.assertEqual(Sources([os.path.join(folder, "none")], known).lines_of("x.c"), ["a"])
            other = os.path.join(folder, "b")
            self.assertEqual(Sources([other], known).lines_of("x.c"), ["a"])
            self.assertEqual(Sources([other], known, are_chosen=True).lines_of("x.c"), ["b"])
            known["x.c"] = os.path.join(folder, "none.c")
            self.assertEqual(Sources([other], known).lines_of("x.c"), ["b"])

    def test_bytes_that_are_no_text(self):
        with tempfile.TemporaryDirectory() as folder:
            with open(os.path.join(folder, "x.c"), "wb") as file:
                file.write(b"f(\xff);\n")
            self.assertEqual(Sources([folder]).lines_of("x.c"), ["f(\ufffd);", ""])

    def test_what_cannot_be_read_has_no_lines(self):
        with tempfile.TemporaryDirectory() as folder:
            os.symlink("nowhere", os.path.join(folder, "x.c"))
            self.assertEqual(Sources([folder]).lines_of("x.c"), [])

    def test_hidden_folders_are_passed_over(self):
        with tempfile.TemporaryDirectory() as folder:
            os.mkdir(os.path.join(folder, ".git"))
            with open(os.path.join(folder, ".git", "x.c"), "w", encoding="utf-8") as file:
                file.write("hidden")
            self.assertEqual(Sources([folder]).lines_of("x.c"), [])
