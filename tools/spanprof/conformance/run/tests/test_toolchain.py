"""What is asked of a compiler; a script takes its place."""
import pathlib
import tempfile
import unittest

from spanprof.conformance.run.toolchain import HARNESS, BuildFailed, NoCompiler, Toolchain

# Writes its words to a file, and the file that it is to make; refuses `inoutset`, and all there is if told so.
COMPILER = """#!/bin/sh
echo "$@" >> {folder}/words
[ ! -e {folder}/broken ] || {{ echo "no OpenMP here" >&2; exit 1; }}
for word in "$@"; do
    case $word in *.c) grep -q inoutset "$word" && {{ echo "unknown kind" >&2; exit 1; }} ;; esac
    [ "$last" != -o ] || printf '#!/bin/sh\\necho /lib/libgomp.so.1\\n' > "$word"
    [ "$last" != -o ] || chmod +x "$word"
    last=$word
done
exit 0
"""


class Toolchains(unittest.TestCase):
    def setUp(self):
        folder = tempfile.TemporaryDirectory()
        self.addCleanup(folder.cleanup)
        self.folder = pathlib.Path(folder.name)

    def toolchain(self, name="cc", flags=()):
        compiler = self.folder / name
        compiler.write_text(COMPILER.format(folder=self.folder))
        compiler.chmod(0o755)
        return Toolchain(" ".join([str(compiler), *flags]), self.folder)

    def test_kinds_that_the_compiler_knows(self):
        self.assertEqual(self.toolchain().kinds, {"in", "out", "inout"})

    def test_a_compiler_that_is_not_there(self):
        with self.assertRaisesRegex(NoCompiler, "^--cc no-such-cc: No such file or directory$"):
            Toolchain("no-such-cc -O2", self.folder)

    def test_the_harness_is_compiled_once(self):
        toolchain = self.toolchain()
        toolchain.build("int main(void) { return 0; }", "p0")
        words = (self.folder / "words").read_text().split("\n")
        for source in HARNESS.glob("*.c"):
            self.assertEqual(len([line for line in words if str(source) in line]), 1, source.name)
        self.assertIn(f"{self.folder}/log.o", words[-2])

    def test_kept_programs_are_built_once(self):
        first = self.toolchain()
        first.kept = self.folder / "kept"
        program = first.build("int main(void) { return 0; }", "p0")
        compiled = len((self.folder / "words").read_text().split("\n"))
        self.assertEqual(first.build("int main(void) { return 0; }", "p1"), program)
        self.assertEqual(len((self.folder / "words").read_text().split("\n")), compiled)
        self.assertNotEqual(first.build("int main(void) { return 1; }", "p2"), program)
        first.forget([program])
        self.assertTrue(program.exists())

    def test_programs_of_other_flags_are_others(self):
        self.assertNotEqual(self.toolchain().digest("x"), self.toolchain(flags=["-O2"]).digest("x"))

    def test_flags(self):
        self.assertEqual(self.toolchain(flags=["-O2"]).shown_flags, ["-O1", "-g", "-fopenmp", "-O2"])
        self.assertIn("-fopenmp-version=52", self.toolchain("clang-16").shown_flags)
        chosen = self.toolchain("clang-16", ["-fopenmp-version=51"]).shown_flags
        self.assertEqual([flag for flag in chosen if "version" in flag], ["-fopenmp-version=51"])

    def test_compiler_without_openmp(self):
        (self.folder / "broken").touch()
        with self.assertRaisesRegex(BuildFailed, "does not build a small program with OpenMP tasks: no OpenMP here"):
            self.toolchain()

    def test_program_that_is_not_built(self):
        with self.assertRaisesRegex(BuildFailed, "unknown kind"):
            self.toolchain().build("#pragma omp task depend(inoutset: x)", "p0")

    def test_runtime(self):
        self.assertEqual(pathlib.Path(self.toolchain().runtime({})).name.split(".")[0], "libgomp")


if __name__ == "__main__":
    unittest.main()
