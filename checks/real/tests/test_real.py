import os
import tempfile
import unittest

import inputs
from real import (OUTPUT, Left, account_faults, diagnosis_faults, differences, entries, faults, forbidden, new_files,
                  steady)

SUMMARY = "gm: 49.6 ms on 2 threads of gcc 12. At best 30.7 ms.\n"


def left(status=0, said=SUMMARY, **files):
    return Left(status, files, said)


class RealTest(unittest.TestCase):
    def test_entries(self):
        self.assertEqual(entries("# a line\n\ngm: gm -a 'two words'\n"), [("gm", ["gm", "-a", "two words"])])

    def test_lines_that_tell_times(self):
        self.assertEqual(steady(b"one\ntook 3 s\nTime 5\ntwo"), b"one\ntwo")

    def test_new_files(self):
        with tempfile.TemporaryDirectory() as folder:
            inputs.main(folder)
            old = new_files(folder, {})
            self.assertIn("sound.wav", old)
            self.assertEqual(new_files(folder, old), {})
            with open(os.path.join(folder, "out"), "wb") as file:
                file.write(b"2")
            self.assertEqual(new_files(folder, old), {"out": b"2"})

    def test_differences(self):
        self.assertEqual(list(differences(left(out=b"1"), left(out=b"1"))), [])
        self.assertEqual(list(differences(left(out=b"1"), left(3))), ["status 3, and 0 without the recorder",
                                                                      "out differs"])

    def test_faults(self):
        same, other = left(**{OUTPUT: b"1"}), left(**{OUTPUT: b"2"})
        self.assertEqual(list(faults(same, [same], same)), [])
        self.assertEqual(list(faults(same, [same], other)), [OUTPUT + " differs"])
        self.assertEqual(list(faults(same, [same, other], other)), [])
        self.assertIn("names no runtime", list(faults(same, [same], left(said="spanprof", **{OUTPUT: b"1"})))[0])

    def test_forbidden_sentences(self):
        loops = SUMMARY + "do  a lower cutoff\nsure 1 run\ntasks         0, 1,000 pieces of loops\n"
        self.assertEqual(list(forbidden(loops)), ["it says 'cutoff'"])
        self.assertEqual(list(forbidden(loops.replace("0, 1", "10, 1"))), [])
        glue = "do  parallelise code before exec_blas: loop\n"
        self.assertEqual(list(forbidden(glue)), [])
        self.assertEqual(list(forbidden(glue + "lost  the interpreter (R)")), ["it says 'parallelise code before'"])
        self.assertEqual(list(forbidden("gm: -5 ms on 2 threads")), ["it says '-5'"])
        self.assertEqual(list(forbidden("elapsed 1 s on 2 threads: 3.01 of them busy")), ["3.01 of 2 threads are busy"])
        self.assertEqual(list(forbidden(SUMMARY)), [])

    def test_account(self):
        account = {"threads": 2, "elapsed": 5, "parts": {"code": 7, "starved": 3}}
        self.assertEqual(list(account_faults({"account": account})), [])
        self.assertEqual(len(list(account_faults({"account": dict(account, elapsed=6)}))), 1)
        self.assertEqual(list(account_faults({"account": None, "no account": "why"})), ["no account: why"])

    def test_a_change_or_a_reason(self):
        def reported(losses=(), *causes):
            return list(diagnosis_faults({"diagnosis": list(causes), "losses": list(losses)}))
        without = {"kind": "serial", "change": None, "what": "main runs on one thread"}
        self.assertEqual(reported((), {"kind": "machine", "change": None}), [])
        self.assertEqual(reported((), {"kind": "serial", "change": {"what": "divide"}}), [])
        self.assertEqual(reported((), without), ["no change for 'main runs on one thread'"])
        self.assertEqual(reported([{"kind": "serial", "place": "the interpreter (R)"}], without), [])
        self.assertEqual(reported(), ["no diagnosis"])


if __name__ == "__main__":
    unittest.main()
