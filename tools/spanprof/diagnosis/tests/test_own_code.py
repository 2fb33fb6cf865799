import unittest

from spanprof.diagnosis.calls import (A_SAMPLE, INTERPRETER, Sampled, file_that_ran, interpreted_share,
                                      interpreted_time, interpreter_of, own_share)
from spanprof.diagnosis.changes import single
from spanprof.diagnosis.diagnose import diagnose, left_alone
from spanprof.diagnosis.losses import Loss, losses
from spanprof.diagnosis.names import Names
from spanprof.diagnosis.output import as_json
from spanprof.diagnosis.places import OF_THREADS, SERIAL
from spanprof.diagnosis.sentences import lost_sentence
from spanprof.diagnosis.tests.worked import MS, facts, place

GLUE = "after the barrier of the region at exec_blas+0xb9"
EVALUATES, IMPORTS = ("PyEval@python3.11",), ("Py_RunMain@python3.11", "[_ctypes.so]")
SORTS = ("forder", "cfree@libc.so.6")
PYTHON = "the interpreter (python3.11)"


def run(sampled, at=(), **more):
    """100 ms of serial code in an interpreter, which kept three other threads waiting."""
    one = place(GLUE, SERIAL, cost=100 * MS, pieces=9, tasks=0)
    calls = Sampled({GLUE: {calls: number * A_SAMPLE for calls, number in sampled.items()}}, {}, {},
                    {GLUE: {line: number * A_SAMPLE for line, number in at}})
    return facts([one], code=100 * MS, starved=300 * MS, starved_by={GLUE: 300 * MS}, calls=calls, **more)


def interpreted(sampled, at=(), **more):
    return run(sampled, at, interpreter="python3.11", **more)


class OwnCode(unittest.TestCase):
    def test_interpreters_by_their_files(self):
        for file in ("python3.11", "R", "octave-cli", "octave-cli-7.3.0", "perl", "ruby3.1", "guile-3.0", "libR.so",
                     "liboctave.so.10", "libpython3.11.so.1.0", "libruby-3.1.so.3.1"):
            self.assertTrue(INTERPRETER.match(file), file)
        for file in ("perlbench", "Rx", "Rust", "octave-test", "libRmath.so.1", "libm.so.6", "pythia"):
            self.assertFalse(INTERPRETER.match(file), file)

    def test_what_an_interpreter_called_is_not_its_code(self):
        self.assertEqual([file_that_ran(calls) for calls in (EVALUATES, IMPORTS, SORTS, ("main", "sin@libm.so.6"))],
                         ["python3.11", "", "", ""])

    def test_a_program_of_another_name_is_one_where_most_samples_are_in_its_library(self):
        library = ("Py_RunMain@libpython3.11.so.1.0",)
        self.assertEqual(interpreter_of(run({library: 6, SORTS: 4})), "libpython3.11.so.1.0")
        self.assertEqual(interpreter_of(run({library: 4, SORTS: 6})), "")
        found = run({("main", "start_scripts", *library): 9})
        self.assertEqual(interpreter_of(found), "")
        found.program = "python3.11"
        self.assertEqual(interpreter_of(found), "python3.11")

    def test_shares_of_its_serial_code(self):
        found = interpreted({EVALUATES: 12, IMPORTS: 3, SORTS: 5}, at=[("sort.c:9", 4)])
        self.assertEqual((interpreted_share(found, GLUE), own_share(found, GLUE)), (0.6, 0.2))
        self.assertEqual(interpreted_time(found), 60 * MS)
        self.assertAlmostEqual(left_alone(found, single("split", GLUE + "=4")), 0.8)
        few = interpreted({SORTS: 4})
        self.assertEqual((interpreted_share(few, GLUE), own_share(few, GLUE)), (1.0, 0.0))
        found.places[GLUE].kind = OF_THREADS
        self.assertEqual((interpreted_share(found, GLUE), own_share(found, GLUE)), (0.0, 1.0))
        found = run({EVALUATES: 12, SORTS: 5})
        self.assertEqual((interpreted_share(found, GLUE), own_share(found, GLUE)), (0.0, 1.0))

    def test_its_losses_are_apart(self):
        found = interpreted({EVALUATES: 12, SORTS: 8})
        self.assertEqual(losses(found), [Loss("serial", PYTHON, 180 * MS), Loss("serial", GLUE, 120 * MS)])

    def test_no_change_is_reported_of_it(self):
        found = interpreted({EVALUATES: 12, SORTS: 8})
        names, reported = Names(found, None), diagnose(found)
        self.assertEqual([lost_sentence(found, names, loss) for loss in reported.causes],
                         [PYTHON + " runs on one thread: 60 % of 100 ms of serial code",
                          "forder runs on one thread: 40 % of 100 ms of serial code"])
        self.assertEqual(reported.plan, [])
        self.assertEqual([cause["change"] for cause in as_json(reported, names)["diagnosis"]], [None, None])

    def test_at_best_it_takes_as_long(self):
        self.assertEqual(diagnose(interpreted({EVALUATES: 12, SORTS: 8})).best, 70 * MS)

    def test_libraries_without_names(self):
        found = interpreted({EVALUATES: 5, IMPORTS: 15})
        reported = diagnose(found)
        self.assertEqual([lost_sentence(found, Names(found, None), loss) for loss in reported.causes],
                         ["code in libraries of python3.11 runs on one thread: 75 % of 100 ms of serial code"])


if __name__ == "__main__":
    unittest.main()
