import os
import tempfile
import unittest

import testsuite

HEAD = '/* { dg-do run } */\n/* { dg-options "-O2 -fopenmp" } */\n' \
    '/* { dg-additional-options "-msse2" { target sse2 } } */\n'


class Testsuite(unittest.TestCase):
    def test_options_for_every_target(self):
        self.assertEqual(testsuite.options(HEAD), ("-O2",))

    def test_what_is_compiled_alone_is_no_program(self):
        self.assertTrue(testsuite.is_run(HEAD))
        self.assertTrue(testsuite.is_run("int main() {}"))
        self.assertFalse(testsuite.is_run("/* { dg-do compile } */"))

    def test_programs_of_fortran(self):
        with tempfile.TemporaryDirectory() as folder:
            os.makedirs(os.path.join(folder, "libgomp.fortran", "examples"))
            with open(os.path.join(folder, "libgomp.fortran", "examples", "a.f90"), "w", encoding="utf-8") as file:
                file.write("! { dg-do run }\n!$OMP TASK\n")
            found = testsuite.programs(folder)
        self.assertEqual([(it.name, it.language) for it in found], [("fortran:examples:a.f90", "fortran")])

    def test_programs_with_tasks(self):
        with tempfile.TemporaryDirectory() as folder:
            os.mkdir(os.path.join(folder, "libgomp.c"))
            for name, pragma in (("a.c", "task"), ("b.c", "for"), ("c.C", "taskloop")):
                with open(os.path.join(folder, "libgomp.c", name), "w", encoding="utf-8") as file:
                    file.write(HEAD + "#pragma omp %s\n" % pragma)
            found, every = testsuite.programs(folder), testsuite.programs(folder, True)
        self.assertEqual([(it.name, it.language) for it in found], [("c:a.c", "c"), ("c:c.C", "c++")])
        self.assertEqual([it.name for it in every], ["c:a.c", "c:b.c", "c:c.C"])


if __name__ == "__main__":
    unittest.main()
