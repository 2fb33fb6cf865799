"""The one C file of a failure, built by a stub."""
import pathlib
import tempfile
import types
import unittest

from spanprof.conformance.judge.segments import Table
from spanprof.conformance.run import reproduce
from spanprof.conformance.tests.helpers import case_of, failure_of


class StubToolchain:
    cc, shown_flags = ["gcc"], ["-O1", "-fopenmp"]

    def __init__(self, folder, status):
        self.program = pathlib.Path(folder) / "program"
        self.program.write_text(f"#!/bin/sh\nexit {status}\n")
        self.program.chmod(0o755)

    def version(self):
        return "gcc 12.2"

    def runtime_version(self, _environment):
        return "libgomp1 12.2.0"

    def runtime(self, _environment):
        return "/built/libgomp.so"

    def build_alone(self, text, _name):
        self.text = text
        return self.program


class Files(unittest.TestCase):
    def written(self, status, perturb=""):
        failure = failure_of(case_of())
        failure.conditions = types.SimpleNamespace(threads=2, setting="passive", perturb=perturb)
        examined = types.SimpleNamespace(text="omptasks 1\n", table=Table(failure.case.body),
                                         record=types.SimpleNamespace(preds=[[], [0], [0], [1, 2]]))
        with tempfile.TemporaryDirectory() as folder:
            bench = types.SimpleNamespace(toolchain=StubToolchain(folder, status), environment={})
            return reproduce.one_file(bench, failure, examined, "some.c")

    def test_head(self):
        found = self.written(1)
        self.assertEqual((found.failed, found.runs), (reproduce.RUNS, reproduce.RUNS))
        head = found.source.partition("*/")[0]
        for words in ("At stake: a promise of the standard.",
                      "gcc 12.2, libgomp1 12.2.0: 20 of 20 runs of the file fail.",
                      "gcc -O1 -fopenmp -pthread some.c && OMP_WAIT_POLICY=passive MALLOC_PERTURB_=170 ./a.out",
                      "omptasks 1"):
            self.assertIn(words, head)

    def test_a_file_that_does_not_fail(self):
        self.assertIn("0 of 20 runs of the file fail", self.written(0).source)

    def test_delays_in_the_runtime(self):
        head = " ".join(self.written(1, "12:1a2b+").source.partition("*/")[0].split())
        self.assertIn("cc -O2 -fPIC -shared tools/conformance/perturb/*.c -o perturb.so && gcc ", head)
        self.assertIn("PERTURB=12:1a2b+ LD_PRELOAD='./perturb.so /built/libgomp.so' ./a.out", head)


if __name__ == "__main__":
    unittest.main()
