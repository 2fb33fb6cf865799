import os
import pathlib
import subprocess
import tempfile
import time
import unittest
from types import SimpleNamespace

from spanprof.conformance.judge.cases import Case
from spanprof.conformance.judge.verdicts import Expectations, Verdict, read_line
from spanprof.conformance.run import self_checking
from spanprof.conformance.run.launch import Conditions
from spanprof.conformance.run.toolchain import BuildFailed

CONDITIONS = Conditions(2, 8, 1, 0, 10)


def bench(build):
    return SimpleNamespace(toolchain=SimpleNamespace(build_alone=build), environment={"PATH": "/usr/bin:/bin"},
                           expectations=Expectations("", ()))


class Files(unittest.TestCase):
    def test_heads_say_what_is_shown_and_where_it_stands(self):
        for program in self_checking.programs():
            with self.subTest(program.name):
                self.assertTrue(program.shows.endswith("."))
                self.assertTrue(all(section[0].isdigit() for section in program.sections))

    def test_variables_of_a_head(self):
        self.assertEqual(self_checking.read(self_checking.path_of("cancel_loop")).variables,
                         (("OMP_CANCELLATION", "true"),))

    def test_source_needs_no_other_file(self):
        self.assertNotIn('#include "', self_checking.source("cancel_loop"))
        self.assertIn("static inline void expect(", self_checking.source("cancel_loop"))


class Verdicts(unittest.TestCase):
    def test_status(self):
        self.assertTrue(self_checking.verdict_on(0, "", "").accepted)
        self.assertEqual(self_checking.verdict_on(1, "the sum: 26 was seen, 32 is right\n", ""),
                         Verdict("wrong", "the sum: 26 was seen, 32 is right"))
        self.assertEqual(self_checking.verdict_on(-6, "", "Assertion failure\n"),
                         Verdict("crashed", "signal 6: Assertion failure"))

    def test_rule_has_no_numbers_of_one_run(self):
        self.assertEqual(self_checking.rule_of("the sum: -26 was seen, 32 is right"), "the sum")


class Tries(unittest.TestCase):
    CASE = Case("cancel_loop", (), self_checking.VARIANT, 0)

    def setUp(self):
        folder = tempfile.TemporaryDirectory()
        self.addCleanup(folder.cleanup)
        self.folder = pathlib.Path(folder.name)

    def script(self, lines):
        """A program in place of a built one."""
        def build(_text, name, _suffix):
            path = self.folder / name
            path.write_text("#!/bin/sh\n" + lines)
            path.chmod(0o755)
            return path
        return build

    def tally(self, lines):
        return self_checking.try_case(bench(self.script(lines)), self.CASE, [CONDITIONS])[0]

    def test_accepted(self):
        tally = self.tally('[ "$OMP_NUM_THREADS$OMP_CANCELLATION" = 2true ]')
        self.assertEqual((tally.runs, tally.failures), (self_checking.RUNS, []))

    def test_wrong(self):
        tally = self.tally("echo 'turns: 12 was seen, 11 is right'; exit 1")
        self.assertEqual([failure.rule for failure in tally.failures], ["turns"] * self_checking.RUNS)

    def test_hangs_asleep_and_is_not_run_again(self):
        conditions = Conditions(2, 8, 1, 0, 1)
        tally = self_checking.try_case(bench(self.script("exec sleep 60")), self.CASE, [conditions])[0]
        self.assertEqual([(failure.verdict, failure.rule) for failure in tally.failures],
                         [(Verdict("hung", "asleep"), "cancel_loop")])

    def test_hangs_busy_once_it_has_had_the_time_of_a_processor(self):
        conditions = Conditions(2, 8, 1, 0, 1)
        for runs in ("while :; do :; done", "while :; do sleep .001; done"):
            tally = self_checking.try_case(bench(self.script(runs)), self.CASE, [conditions])[0]
            self.assertEqual([failure.verdict for failure in tally.failures], [Verdict("hung", "busy")])

    def test_naps_count_as_time(self):
        looks = [({"S"}, [["1", "0"]]), ({"R", "S"}, [["1", "1"]]), ({"S"}, [["2", "1"]])]
        self.assertEqual(self_checking.share_asleep(looks), 2 / self_checking.LOOKS)
        self.assertFalse(self_checking.is_asleep(looks))
        self.assertEqual(self_checking.processor_time(looks), 3 / os.sysconf("SC_CLK_TCK"))
        self.assertTrue(self_checking.is_asleep(looks[:1] * self_checking.LOOKS))

    def test_what_is_known_takes_no_more_time(self):
        known = bench(self.script("echo 'turns: 12 was seen, 11 is right'; exit 1"))
        known.expectations = Expectations("libgomp.so.1", [read_line("family=gomp program=cancel_loop : some.c")])
        tallies = self_checking.try_case(known, self.CASE, [CONDITIONS, CONDITIONS])
        self.assertEqual([dict(tally.expected) for tally in tallies], [{"some.c": self_checking.RUNS}])

    def test_a_program_that_has_ended_does_not_sleep(self):
        with subprocess.Popen(["true"]) as process:
            time.sleep(.2)
            self.assertFalse(self_checking.is_asleep(self_checking.looks_at(process.pid)))

    def refused(self, said):
        def refuse(*_):
            raise BuildFailed(said)
        return self_checking.try_case(bench(refuse), self.CASE, [CONDITIONS])[0]

    def test_a_construct_that_the_compiler_lacks(self):
        tally = self.refused("p.c: in main:\np.c:3:1: error: no scope\n")
        self.assertEqual((tally.failures, dict(tally.expected)), ([], {"cancel_loop is not built: no scope": 1}))

    def test_a_compiler_that_breaks_down(self):
        tally = self.refused("p.c:3:1: internal compiler error: Segmentation fault\n")
        self.assertEqual(tally.failures[0].verdict.kind, "not built")


if __name__ == "__main__":
    unittest.main()
