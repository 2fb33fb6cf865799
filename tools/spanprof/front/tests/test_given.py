"""In tools/: python3 -m unittest discover -s spanprof/front/tests -t ."""
import os
import tempfile
import unittest
from unittest import mock

from spanprof.front import given
from spanprof.front.given import copied


class InputOfAFile(unittest.TestCase):
    def test_it_is_read_from_where_it_stands_to_its_end(self):
        with tempfile.NamedTemporaryFile() as file:
            file.write(b"omptasks 1\nwork 5\n")
            file.seek(9)
            taken = copied(file.fileno())
            self.addCleanup(taken.file.close)
            self.assertEqual((taken.name, taken.data), (os.path.realpath(file.name), b"1\nwork 5\n"))
            self.assertEqual(os.read(taken.descriptor, 99), b"1\nwork 5\n")
            self.assertEqual(os.lseek(file.fileno(), 0, os.SEEK_CUR), 18)


class InputOfAPipe(unittest.TestCase):
    def setUp(self):
        self.read, self.write = os.pipe()
        self.addCleanup(os.close, self.read)

    def test_the_program_reads_a_copy(self):
        os.write(self.write, b"omptasks 1\n")
        os.close(self.write)
        taken = copied(self.read)
        self.addCleanup(taken.file.close)
        self.assertEqual(os.read(taken.descriptor, 99), b"omptasks 1\n")
        self.assertEqual((taken.name, taken.data), ("standard input", b"omptasks 1\n"))

    def test_no_more_is_taken_than_the_program_takes(self):
        os.write(self.write, b"omptasks 1 work 5")
        os.close(self.write)
        with mock.patch.object(given, "LARGEST_INPUT", 9):
            taken = copied(self.read)
        self.addCleanup(taken.file.close)
        self.assertEqual(taken.data, b"omptasks 1")
        self.assertEqual(os.read(self.read, 99), b" work 5")

    def test_what_cannot_be_read(self):
        os.close(self.write)
        folder = os.open("/", os.O_RDONLY)
        self.addCleanup(os.close, folder)
        taken = copied(folder)
        self.assertIsNone(taken.data)
        with self.assertRaises(IsADirectoryError):
            os.read(taken.descriptor, 1)


if __name__ == "__main__":
    unittest.main()
