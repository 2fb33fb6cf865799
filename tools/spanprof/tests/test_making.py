"""What make leaves: built where it is missing or old, by one process at a time, and a fault where it cannot be."""
import os
import tempfile
import threading
import unittest

from spanprof.command import Fault
from spanprof.converting import Product, find_or_build

PRODUCT = Product("made", "the thing", "some-package")
MAKEFILE = "made: it.cpp room/other.cpp\n\techo begun >> runs && sleep 0.1 && echo whole > $@.new && mv $@.new $@\n"


class Making(unittest.TestCase):
    def setUp(self):
        scratch = tempfile.TemporaryDirectory()
        self.addCleanup(scratch.cleanup)
        self.folder = scratch.name
        self.write("it.cpp", "")
        os.mkdir(os.path.join(self.folder, "room"))
        self.write("room/other.cpp", "")
        self.write("Makefile", MAKEFILE)

    def write(self, name, text):
        with open(os.path.join(self.folder, name), "w", encoding="utf-8") as file:
            file.write(text)

    def runs(self):
        with open(os.path.join(self.folder, "runs"), encoding="utf-8") as file:
            return len(file.readlines())

    def find(self):
        return find_or_build(PRODUCT, [self.folder], lambda words: None)

    def test_what_several_need_at_once_is_made_once(self):
        threads = [threading.Thread(target=self.find) for _ in range(4)]
        for thread in threads:
            thread.start()
        for thread in threads:
            thread.join()
        self.assertEqual(self.runs(), 1)
        self.assertEqual(self.find(), os.path.join(self.folder, "made"))
        self.assertEqual(self.runs(), 1)

    def test_a_source_in_a_folder_that_is_newer(self):
        self.find()
        os.utime(os.path.join(self.folder, "room", "other.cpp"), (2e9, 2e9))
        self.find()
        self.assertEqual(self.runs(), 2)

    def test_what_cannot_be_made_is_a_fault(self):
        self.write("Makefile", "made: it.cpp\n\techo 'it.cpp:1: error: no such thing' && false\n")
        with self.assertRaisesRegex(Fault, "the thing cannot be built: it.cpp:1: error: no such thing .*some-package"):
            self.find()

    def test_neither_made_nor_to_be_made(self):
        with tempfile.TemporaryDirectory() as empty, self.assertRaisesRegex(Fault, "made is neither in"):
            find_or_build(PRODUCT, [empty], lambda words: None)


if __name__ == "__main__":
    unittest.main()
