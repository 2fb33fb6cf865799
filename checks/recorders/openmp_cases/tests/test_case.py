import unittest

from case import (Left, count_tasks, first_faults, is_counted, is_of_gcc, is_preloaded, last_faults, needed_version,
                  numbers_of_head, wants)

SOURCE = """\
// A program.
// env: A=1
// says: not written
// text: # remark: \\d+
// file: out.tasks out.[0-9]*.tasks
// no file: out.9.tasks
// expect: work >= 10
#include <omp.h>
// text: of the program's own
"""


def left(**changes):
    values = dict(status=0, said="it is not written", files={"out.tasks": "# remark: 3", "out.71.tasks": ""},
                  numbers={"work": 10})
    return Left(**dict(values, **changes))


class Wanted(unittest.TestCase):
    def setUp(self):
        self.wanted = wants(SOURCE)

    def faults(self, **changes):
        return list(first_faults(self.wanted, left(**changes))) + list(last_faults(self.wanted, left(**changes)))

    def test_only_the_head_asks(self):
        self.assertEqual(self.wanted["text"], ["# remark: \\d+"])

    def test_the_compiler(self):
        self.assertFalse(is_of_gcc(self.wanted))
        self.assertTrue(is_of_gcc(wants("// compiler: gcc\n")))

    def test_the_clock(self):
        self.assertFalse(is_counted(self.wanted))
        self.assertTrue(is_counted(wants("// clock: counted\n")))

    def test_what_is_loaded_first(self):
        self.assertFalse(is_preloaded(self.wanted))
        self.assertTrue(is_preloaded(wants("// preload: recorder\n")))

    def test_the_version(self):
        self.assertEqual(needed_version(wants("// needs: LLVM 16\n")), 16)
        self.assertEqual(needed_version(self.wanted), 0)

    def test_right(self):
        self.assertEqual(self.faults(), [])

    def test_each_wish(self):
        self.assertIn("status", self.faults(status=1)[0])
        self.assertIn("standard error", self.faults(said="")[0])
        self.assertEqual(self.faults(files={"out.tasks": "# remark: 3"}), ["out.[0-9]*.tasks is missing"])
        self.assertIn("has no", self.faults(files={"out.tasks": "", "out.1.tasks": ""})[0])
        self.assertEqual(self.faults(files={"out.tasks": "# remark: 3", "out.9.tasks": ""}), ["out.9.tasks is there"])
        self.assertEqual(self.faults(numbers={"work": 9}), ["work is 9, and not >= 10"])
        self.assertEqual(self.faults(numbers={}), ["there is no work"])
        self.assertEqual(self.faults(refused=["out.timed: NotReady"]), ["out.timed: NotReady"])

    def test_parts_are_no_tasks(self):
        self.assertEqual(count_tasks("task {  # one of the region's threads\n  task if(0) {\n  }\n}\ntaskwait\n"), 1)

    def test_numbers_of_the_head(self):
        text = ('# covers: {"text": 93, "program": 100, "at most": true}\n'
                '# clocks differ: {"affected": 424, "work": 425, "by": 384, "times": 85}\n'
                '# most held lock: 64\nomptasks 1\n')
        self.assertEqual(numbers_of_head(text), {"covers": 93, "most held lock": 64, "affected": 424,
                                                 "off the processor": 384})
        self.assertEqual(numbers_of_head("omptasks 1\n"), {})


if __name__ == "__main__":
    unittest.main()
