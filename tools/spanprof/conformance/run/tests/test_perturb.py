"""Delays in a runtime: what is reported, and what places are called. No compiler, no runtime."""
import pathlib
import subprocess
import tempfile
import unittest
from unittest import mock

from spanprof.conformance.run import perturb

INLINED = "gomp_mutex_unlock at mutex.h:64\n (inlined by) GOMP_taskwait at task.c:1585 (discriminator 1)\n"


class Runtimes(unittest.TestCase):
    def checked(self, content):
        with tempfile.NamedTemporaryFile() as file:
            pathlib.Path(file.name).write_bytes(content)
            perturb.check(file.name)

    def test_one_that_calls_the_library(self):
        self.checked(b"\x7fELF\0__tsan_func_entry\0")

    def test_one_that_does_not(self):
        with self.assertRaisesRegex(perturb.NotInstrumented, "is not built with -fsanitize=thread"):
            self.checked(b"\x7fELF\0GOMP_task\0")

    def test_loaded_before_others(self):
        self.assertEqual(perturb.before_others("/p.so", {}), {"LD_PRELOAD": "/p.so"})
        self.assertEqual(perturb.before_others("/p.so", {"LD_PRELOAD": "/g.so", "A": "1"}),
                         {"LD_PRELOAD": "/p.so /g.so", "A": "1"})


class Words(unittest.TestCase):
    def test_variables(self):
        self.assertEqual((perturb.variables(""), perturb.variables("12")), ({}, {"PERTURB": "12"}))

    def test_places_of_a_seed(self):
        self.assertEqual(perturb.at_places("12", ["1a+", "2b-"]), "12:1a+,2b-")
        self.assertEqual(perturb.at_places("12:1a+,2b-", ["2b-"]), "12:2b-")
        self.assertEqual(perturb.at_places("12", []), "12:")

    def named(self, place, out, tool="/bin/addr2line"):
        done = subprocess.CompletedProcess([], 0, out, "")
        with mock.patch("shutil.which", return_value=tool), mock.patch("subprocess.run", return_value=done) as run:
            return perturb.named("/x/libgomp.so.1", place), run

    def test_a_line_and_what_is_inlined_there(self):
        name, run = self.named("21a65+", INLINED)
        self.assertEqual(name, "after task.c:1585 (GOMP_taskwait, in gomp_mutex_unlock)")
        self.assertEqual(run.call_args[0][0][-1], "0x21a64")
        self.assertEqual(self.named("21a65-", "GOMP_task at task.c:555\n")[0], "before task.c:555 (GOMP_task)")

    def test_functions_of_cpp(self):
        for function in ("__kmp_check(int, kmp_flag_32<false>*)", "int __kmp_check<kmp_flag_32<true> >(int)"):
            self.assertEqual(self.named("5-", f"{function} at k.cpp:3\n")[0], "before k.cpp:3 (__kmp_check)")

    def test_without_debug_information(self):
        self.assertEqual(self.named("21a65+", "?? ??:0\n")[0], "after libgomp.so.1+0x21a65")
        self.assertEqual(self.named("21a65+", INLINED, None)[0], "after libgomp.so.1+0x21a65")


if __name__ == "__main__":
    unittest.main()
