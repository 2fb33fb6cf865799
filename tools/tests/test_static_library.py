"""Which libraries a static library is built over, and when those that the gate has left are taken."""
import os
import subprocess
import tempfile
import unittest

import static_library

CRATES = """# a comment
low:
middle may_wait=2: low thiserror
top staticlib: low middle rayon   # and more
"""


def write(*parts, text="x", when=None):
    path = os.path.join(*parts)
    os.makedirs(os.path.dirname(path), exist_ok=True)
    with open(path, "w", encoding="utf-8") as file:
        file.write(text)
    if when is not None:
        os.utime(path, (when, when))


class Crates(unittest.TestCase):
    def setUp(self):
        self.crates = static_library.listed(CRATES)

    def test_the_list(self):
        self.assertEqual(self.crates, {"low": [], "middle": ["low", "thiserror"], "top": ["low", "middle", "rayon"]})

    def test_those_below_stand_behind_their_own(self):
        self.assertEqual(static_library.below(self.crates, "top"), ["low", "middle"])

    def test_the_words(self):
        words = static_library.words_of("/top", "/kit", self.crates, "top")
        self.assertEqual(words[:5], ["--crate-name", "top", "src/lib.rt", "--crate-type", "staticlib"])
        self.assertIn("rayon=/kit/rlibs/rayon.rlib", words)
        self.assertIn("std=/kit/rlibs/std.rlib", words)
        self.assertIn("middle=/top/crates/middle/out/rlib/middle.rlib", words)
        self.assertIn("dependency=/top/crates/low/out/rlib", words)


class Left(unittest.TestCase):
    def setUp(self):
        folder = tempfile.TemporaryDirectory()
        self.addCleanup(folder.cleanup)
        self.top, self.crates = folder.name, static_library.listed(CRATES)
        for name in ("low", "middle"):
            write(self.top, "crates", name, "src", "lib.rt", when=100)
            write(static_library.built_of(self.top, name), "format", when=50)   # kept by an earlier run
            os.utime(static_library.built_of(self.top, name), (200, 200))

    def is_left(self, name):
        return static_library.is_left(self.top, self.crates, name)

    def test_what_is_newer_than_its_sources(self):
        self.assertTrue(self.is_left("low") and self.is_left("middle"))

    def test_a_source_below_that_has_changed(self):
        write(self.top, "crates", "low", "specs", "Low.antt", when=300)
        self.assertFalse(self.is_left("low") or self.is_left("middle"))

    def test_a_source_above_that_has_changed(self):
        write(self.top, "crates", "middle", "proofs", "f", "Answers.antt", when=300)
        self.assertTrue(self.is_left("low"))
        self.assertFalse(self.is_left("middle"))

    def test_none(self):
        os.remove(os.path.join(static_library.built_of(self.top, "low"), "format"))
        self.assertFalse(self.is_left("low"))


class Keeping(unittest.TestCase):
    def test_clang_keeps_the_module(self):
        with tempfile.TemporaryDirectory() as folder:
            write(folder, "kit", "bin", "clang", text="#!/bin/sh\necho compiled $1\n")
            write(folder, "kit", "bin", "ld.lld")
            os.chmod(os.path.join(folder, "kit", "bin", "clang"), 0o755)
            own = static_library.keeping(os.path.join(folder, "kit"), folder, os.path.join(folder, "kept.bc"))
            write(folder, "work", "module.bc", text="code")
            ran = subprocess.run([os.path.join(own, "bin", "clang"), "it"], cwd=os.path.join(folder, "work"),
                                 capture_output=True, text=True, check=True)
            self.assertEqual(ran.stdout, "compiled it\n")
            with open(os.path.join(folder, "kept.bc"), encoding="utf-8") as file:
                self.assertEqual(file.read(), "code")
            self.assertTrue(os.path.islink(os.path.join(own, "bin", "ld.lld")))


class Failing(unittest.TestCase):
    def test_what_a_command_said(self):
        with self.assertRaisesRegex(static_library.NotBuilt, "status 3\nwhy"):
            static_library.run(["sh", "-c", "echo why; exit 3"], "/")


if __name__ == "__main__":
    unittest.main()
