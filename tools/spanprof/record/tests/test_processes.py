import os
import tempfile
import unittest

from spanprof.record.folder import NOTED, expect, note_of_others, started


class Processes(unittest.TestCase):
    def setUp(self):
        folder = tempfile.TemporaryDirectory()
        self.addCleanup(folder.cleanup)
        self.out = os.path.join(folder.name, "mine")
        expect(self.out)

    def note(self, lines, *recorded):
        with open(self.out + NOTED, "a", encoding="utf-8") as file:
            file.write(lines)
        return note_of_others(started(self.out), recorded)

    def test_those_that_met_no_openmp(self):
        self.assertEqual(self.note("7 4 sh\n8 4 awk\n9 4 awk\n", 7), "2 other processes met no OpenMP: awk (2)")
        self.assertEqual(self.note("10 1 solve\n11 0 a b\n", 7, 8, 9, 10), "1 other process met no OpenMP: a b")
        self.assertEqual(self.note("12 4 x\n13 4 y\n", 7, 10),
                         "5 other processes met no OpenMP: awk (2), a b, x, ..")

    def test_a_process_that_went_on_as_another_program_is_one(self):
        self.assertEqual(self.note("7 4 env\n7 1 solve\n", 7), "")
        self.assertEqual(started(self.out), {7: (1, "solve")})

    def test_no_file(self):
        self.assertEqual((started(self.out + "2"), note_of_others({}, ())), ({}, ""))
        self.assertEqual(self.note("x y\n\n7 4\n8 x y\n"), "")


if __name__ == "__main__":
    unittest.main()
