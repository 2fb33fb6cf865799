import os
import tempfile
import unittest
from unittest import mock

from spanprof.record.runtime import in_words, note_of, runtimes_in

MODULES = """55 56 57 module 
7f10 7f20 7f30 module /r/librecorder.so
7f40 7f50 7f60 runtime /lib/x86_64-linux-gnu/libgomp.so.1
7f40 7f50 7f60 runtime /lib/x86_64-linux-gnu/libgomp.so.1
7f70 7f80 7f90 runtime /usr/lib/llvm-19/lib/libomp.so.5
"""
SYMBOLS = """
   Num:    Value          Size Type    Bind   Vis      Ndx Name
     1: 0000000000000000     0 OBJECT  GLOBAL DEFAULT  ABS GOMP_5.0
     2: 0000000000000000     0 OBJECT  GLOBAL DEFAULT  ABS GOMP_5.1
     3: 0000000000000000     0 OBJECT  GLOBAL DEFAULT  ABS GOMP_5.0.1
"""


class Names(unittest.TestCase):
    def found(self, modules, table=SYMBOLS):
        with mock.patch("spanprof.record.runtime.listed", return_value=table):
            return runtimes_in(modules)

    def test_each_runtime_once(self):
        self.assertEqual([(it["name"], it["version"]) for it in self.found(MODULES)], [("gnu", "12"), ("llvm", "19")])
        self.assertEqual(self.found("1 2 3 module /lib/libc.so.6\n"), [])

    def test_in_words(self):
        self.assertEqual([in_words(it) for it in self.found(MODULES)], ["gcc 12's libgomp", "LLVM 19's libomp"])
        self.assertEqual(in_words(self.found(MODULES, "")[0]), "gcc's libgomp")

    def test_the_note(self):
        self.assertEqual(note_of("/no/such/log"), "")
        with tempfile.TemporaryDirectory() as log, mock.patch("spanprof.record.runtime.listed", return_value=""):
            with open(os.path.join(log, "modules"), "w", encoding="utf-8") as file:
                file.write(MODULES)
            self.assertEqual(note_of(log), "the program ran on two runtimes: gcc's libgomp and LLVM 19's libomp")


if __name__ == "__main__":
    unittest.main()
