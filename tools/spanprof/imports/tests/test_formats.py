"""In tools/: python3 -m unittest discover -s spanprof/imports/tests -t ."""
import os
import unittest

from spanprof.command import Fault
from spanprof.imports.formats import format_of, read
from spanprof.tests.in_folder import InFolder


class Formats(InFolder):
    def test_by_what_a_file_begins_with(self):
        for text, name in (("# ninja log v5\n", "ninja"), ("[{", "chrome"), ('\n{"traceEvents": [', "chrome"),
                           ("Name: a\n", "starpu"), ("\nJobId: 1\n", "starpu"), ("Control: WontUse\n", "starpu")):
            self.assertEqual(format_of(self.write("x", text)), name)

    def test_others_are_refused(self):
        for text in ("", "omptasks 1\n", "\x7fELF"):
            with self.assertRaisesRegex(Fault, "x: neither a log of ninja, nor a trace in Chrome's JSON, nor StarPU's"):
                format_of(self.write("x", text))

    def test_damage_names_the_file(self):
        path = os.path.join(self.folder, "x")
        head = b"\x1f\x8b\x08" + bytes(7)
        for data in (b"\x1f\x8b\x08\0cut", b"\x1f\x8b", head + b"\x07"):     # a block of no type of RFC 1951
            with open(path, "wb") as file:
                file.write(data)
            with self.assertRaisesRegex(Fault, "x: .*cut off|x is damaged|x: Not a gzipped"):
                read("chrome", path)
        deep = self.write("deep", "[" * 100000)
        with self.assertRaisesRegex(Fault, "deep is damaged: maximum recursion|deep:1: "):
            read("chrome", deep)


if __name__ == "__main__":
    unittest.main()
