import os
import tempfile
import unittest

from versions import Version, asked, folders, found, runtimes


class Versions(unittest.TestCase):
    def found(self, libraries, compilers):
        names = {prefix + number for number in compilers for prefix in ("clang-", "clang++-")}
        return found(libraries, lambda name: name if name in names else None)

    def test_the_newest_comes_first(self):
        libraries = ["/usr/lib/llvm-%s/lib" % number for number in ("9", "16", "19")]
        self.assertEqual([one.number for one in self.found(libraries, {"9", "16", "19"})], ["19", "16", "9"])

    def test_an_installed_runtime_comes_before_an_unpacked_one(self):
        both = ["/usr/lib/llvm-19/lib", "/opt/omp-19/usr/lib/llvm-19/lib"]
        self.assertEqual([one.library for one in self.found(both, {"19"})], both[:1])
        self.assertEqual([one.library for one in self.found(both[1:], {"19"})], both[1:])

    def test_a_version_without_its_compiler(self):
        self.assertEqual(self.found(["/usr/lib/llvm-16/lib"], {"19"}), [])
        self.assertEqual(found(["/usr/lib/llvm-16/lib"], {"clang-16": "/usr/bin/clang-16"}.get), [])

    def test_those_that_are_asked_for(self):
        there = [Version("19", "a"), Version("14", "b")]
        self.assertEqual([[one.number for one in asked(words, there)] for words in ("14,16,19", "", "16")],
                         [["14", "19"], ["19", "14"], []])


class Folders(unittest.TestCase):
    def test_those_of_the_variable(self):
        self.assertEqual(folders({"LLVM_FOLDERS": "/a:/b"}, ["/opt/omp-16"]), ["/", "/a", "/b"])
        self.assertEqual(folders({"LLVM_FOLDERS": ""}, ["/opt/omp-16"]), ["/"])

    def test_without_it(self):
        self.assertEqual(folders({}, ["/opt/omp-16", "/opt/omp-14"]), ["/", "/opt/omp-14", "/opt/omp-16"])

    def unpack(self, top, *names):
        library = os.path.join(top, "usr", "lib", "llvm-16", "lib")
        for name in names:
            path = os.path.join(library, name)
            os.makedirs(os.path.dirname(path), exist_ok=True)
            with open(path, "w", encoding="utf-8"):
                pass
        return library

    def test_an_unpacked_runtime_with_its_headers(self):
        with tempfile.TemporaryDirectory() as top:
            library = self.unpack(top, "libomp.so", "libomp.so.5", "clang/16/include/omp.h")
            self.assertEqual(runtimes([top]), [library])
            headers = os.path.join(library, "clang", "16", "include")
            self.assertEqual(Version("16", library).flags(),
                             ["-isystem" + headers, "-L" + library, "-Wl,-rpath," + library])

    def test_a_runtime_that_nothing_can_be_linked_with(self):
        with tempfile.TemporaryDirectory() as top:
            self.unpack(top, "libomp.so.5")
            self.assertEqual(runtimes([top]), [])


if __name__ == "__main__":
    unittest.main()
