import os
import tempfile
import unittest
from unittest import mock

from spanprof.command import Fault
from spanprof.record.runtime import (ELF, GCC, LLVM, Chosen, Linkage, by_version, choose, is_checked, is_static,
                                     linkage, loads_more, shared_runtimes, symbols, what_it_lacks)
from spanprof.record.tests.made_up import LDD_GCC, LDD_LLVM, LDD_MISSING, LDD_PLAIN, LDD_STATIC, SYMBOLS

CALLS = "     4: 0000000000000000     0 FUNC    GLOBAL DEFAULT  UND %s@GLIBC_2.2.5 (4)\n"


class Listings(unittest.TestCase):
    def test_runtimes(self):
        self.assertEqual(shared_runtimes(LDD_GCC), {GCC: "/lib/x86_64-linux-gnu/libgomp.so.1"})
        self.assertEqual(shared_runtimes(LDD_LLVM), {LLVM: "/usr/lib/llvm-16/lib/libomp.so.5"})
        self.assertEqual(shared_runtimes(LDD_MISSING), {LLVM: ""})
        self.assertEqual(shared_runtimes(LDD_PLAIN), {})
        self.assertEqual(shared_runtimes(LDD_STATIC), {})

    def test_a_runtime_that_is_named_by_its_path(self):
        self.assertEqual(shared_runtimes("\t/opt/libiomp5.so (0x00007f)\n"), {LLVM: "/opt/libiomp5.so"})

    def test_static(self):
        self.assertTrue(is_static(LDD_STATIC))
        self.assertFalse(is_static(LDD_GCC))

    def test_symbols(self):
        defined, undefined = symbols(SYMBOLS)
        self.assertEqual(defined, {"main", "GOMP_parallel"})
        self.assertEqual(undefined, {"GOMP_taskwait", "GOMP_scope_start"})


class Programs(unittest.TestCase):
    def linkage_of(self, first, listings):
        with tempfile.TemporaryDirectory() as folder:
            path = os.path.join(folder, "mine")
            with open(path, "wb") as file:
                file.write(first)
            with mock.patch("spanprof.record.runtime.listed", side_effect=lambda words: listings[words[0]]):
                return linkage(path)

    def test_a_script_is_not_listed(self):
        self.assertTrue(self.linkage_of(b"#!/bin/sh\n", {}).is_script)

    def test_a_program_of_gcc(self):
        found = self.linkage_of(b"\x7fELF", {"ldd": LDD_GCC, "readelf": SYMBOLS.replace("GOMP_parallel", "mine")})
        self.assertEqual((list(found.libraries), found.inside), ([GCC], set()))
        self.assertEqual(found.called, {"GOMP_taskwait", "GOMP_scope_start"})
        self.assertFalse(found.loads)

    def test_a_runtime_inside(self):
        self.assertEqual(self.linkage_of(b"\x7fELF", {"ldd": LDD_PLAIN, "readelf": SYMBOLS}).inside, {GCC})

    def test_a_program_that_becomes_another(self):
        listings = {"ldd": LDD_PLAIN, "readelf": CALLS % "execv"}
        self.assertTrue(self.linkage_of(b"\x7fELF", listings).loads)
        self.assertFalse(self.linkage_of(b"\x7fELF", dict(listings, readelf=CALLS % "executed")).loads)

    def test_a_program_whose_library_loads_others(self):
        """As python's where it is a library; that the system's own can do so says nothing."""
        with mock.patch("spanprof.record.runtime.listed", return_value=CALLS % "dlopen"):
            self.assertTrue(loads_more({"Py_BytesMain"}, "\tlibpython3.so => /lib/libpython3.so (0x1)\n" + LDD_PLAIN))
            self.assertFalse(loads_more({"puts"}, LDD_PLAIN))

    def test_a_file_that_cannot_be_read(self):
        with self.assertRaisesRegex(Fault, "No such file"):
            linkage("/no/such/program")


class Choosing(unittest.TestCase):
    def chosen(self, linked, wanted=None):
        with mock.patch("spanprof.record.runtime.llvm_runtime", return_value="/llvm/libomp.so.5"):
            return choose("mine", linked, wanted)

    def test_gcc_runs_on_its_own(self):
        gcc = Linkage(libraries={GCC: "/lib/libgomp.so.1"})
        self.assertEqual(self.chosen(gcc), Chosen(in_front=True))
        self.assertEqual(self.chosen(gcc, "gnu"), Chosen(in_front=True))
        self.assertEqual(self.chosen(gcc, "llvm"), Chosen("/llvm/libomp.so.5"))

    def test_a_runtime_that_the_loader_does_not_find(self):
        self.assertEqual(self.chosen(Linkage(libraries={LLVM: ""})), Chosen("/llvm/libomp.so.5"))

    def test_llvm_stays(self):
        self.assertEqual(self.chosen(Linkage(libraries={LLVM: "/llvm-14/libomp.so.5"})), Chosen(in_front=True))
        self.assertEqual(self.chosen(Linkage(inside={LLVM})), Chosen(in_front=True))

    def test_a_sanitizer_has_to_be_loaded_first(self):
        linked = Linkage(libraries={LLVM: "/llvm-14/libomp.so.5"}, is_checked=True)
        self.assertEqual(self.chosen(linked), Chosen())
        self.assertTrue(is_checked("\tlibasan.so.8 => /lib/x86_64-linux-gnu/libasan.so.8 (0x1)"))
        self.assertFalse(is_checked("\tlibomp.so.5 => /lib/libomp.so.5 (0x1)"))

    def test_what_loads_a_runtime_later(self):
        self.assertEqual(self.chosen(Linkage(is_script=True)), Chosen(in_front=True))
        self.assertEqual(self.chosen(Linkage(loads=True)), Chosen(in_front=True))

    def test_what_cannot_be_recorded(self):
        for linked, words in ((Linkage(), "no OpenMP in it"), (Linkage(is_static=True, inside={GCC}), "statically"),
                              (Linkage(inside={GCC}), "has gcc's runtime .* inside")):
            with self.assertRaisesRegex(Fault, words):
                self.chosen(linked)

    def test_a_runtime_that_is_asked_for(self):
        self.assertEqual(choose("mine", Linkage(), "/proc/self/exe"), Chosen("/proc/self/exe"))
        for path, why in (("/no/such/library", "no such file"), (__file__, "not a shared library")):
            with self.assertRaisesRegex(Fault, "^--runtime %s: %s$" % (path, why)):
                choose("mine", Linkage(), path)

    def test_another_one_of_gcc(self):
        with mock.patch("os.path.isfile", return_value=True), \
                mock.patch("spanprof.record.runtime.first_bytes", return_value=ELF):
            self.assertEqual(choose("mine", Linkage(), "/gcc-14/libgomp.so.1"), Chosen("/gcc-14/libgomp.so.1", True))

    def test_the_newest_version_comes_first(self):
        paths = ["/usr/local/lib/libomp.so"] + ["/usr/lib/llvm-%d/lib/libomp.so.5" % n for n in (9, 19, 16)]
        self.assertEqual([p.split("/")[3] for p in sorted(paths, key=by_version)],
                         ["llvm-19", "llvm-16", "llvm-9", "lib"])

    def test_what_llvm_lacks(self):
        table = SYMBOLS.replace("UND GOMP_taskwait", "12 GOMP_taskwait")
        with mock.patch("spanprof.record.runtime.listed", return_value=table):
            self.assertEqual(what_it_lacks("libomp.so.5", {"GOMP_taskwait", "GOMP_scope_start"}), ["GOMP_scope_start"])
        with mock.patch("spanprof.record.runtime.listed", return_value=""):
            self.assertEqual(what_it_lacks("libomp.so.5", {"GOMP_taskwait"}), [])


if __name__ == "__main__":
    unittest.main()
