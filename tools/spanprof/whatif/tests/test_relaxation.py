import os
import unittest
from unittest import mock

from spanprof.command import Fault
from spanprof.tests.in_folder import InFolder
from spanprof.tests.proofs import with_a_proved_program
from spanprof.whatif.changes import Defer, DropDepend, Factor
from spanprof.whatif.output import PROVED, proof_of

setUpModule = with_a_proved_program


class Relaxation(InFolder):
    def proof(self, answer, *made):
        old, new = self.write("old", "omptasks 1\ntask if(0) { }"), self.write("new", "omptasks 1\ntask { }\n")
        program = self.program("large", "#!/bin/sh\ncat > %s/read\n%s\n" % (self.folder, answer))
        with mock.patch.dict(os.environ, SPANPROF_LARGE=program):
            return proof_of(made, old, new)

    def test_what_it_reads(self):
        self.assertEqual(self.proof("echo accepted", Defer("a"), DropDepend("a")), [PROVED])
        with open(os.path.join(self.folder, "read"), encoding="utf-8") as file:
            self.assertEqual(file.read(), "omptasks 1\ntask if(0) { }\n---\nomptasks 1\ntask { }\n\n")

    def test_a_refusal(self):
        with self.assertRaisesRegex(Fault, "fault of this tool: .*error: NewPair 1 2"):
            self.proof("echo error: NewPair 1 2; exit 1", Defer("a"))

    def test_no_answer(self):
        self.assertEqual(self.proof("echo error: out of memory; exit 3", Defer("a")), [])

    def test_other_changes(self):
        self.assertEqual(self.proof("exit 1", Defer("a"), Factor("a", 2)), [])


if __name__ == "__main__":
    unittest.main()
