import unittest
from unittest import mock

from spanprof.command import Fault
from spanprof.record import folder
from spanprof.record.runtime import LLVM, Linkage, launched


class Ranks(unittest.TestCase):
    def test_the_number_of_a_process(self):
        for rank, size in folder.VARIABLES:
            self.assertEqual(folder.rank_of({rank: "2", size: "3"}), 2)
            self.assertIsNone(folder.rank_of({rank: "0", size: "1"}))
            self.assertIsNone(folder.rank_of({rank: "2"}))
        self.assertIsNone(folder.rank_of({"SLURM_PROCID": "x", "SLURM_STEP_NUM_TASKS": "3"}))

    def test_names(self):
        self.assertEqual([folder.of_rank("/tmp/m", rank) for rank in (None, 7)], ["/tmp/m", "/tmp/m.rank7"])
        self.assertEqual([folder.is_child("/tmp/m%s.spanprof" % end) for end in (
            "", ".rank0", ".child2", ".rank0.child1", ".child")],
                         [False, False, True, True, False])

    def test_launchers(self):
        for name in ("mpirun", "/usr/bin/mpirun.openmpi", "mpiexec.hydra", "srun"):
            self.assertTrue(folder.is_launcher(name))
        self.assertFalse(folder.is_launcher("./mpirunner"))


class Launched(unittest.TestCase):
    def find(self, words, linked=()):
        def linkage(path):
            return Linkage(libraries={LLVM: "/l"} if path in linked else {})
        with mock.patch("spanprof.record.runtime.shutil.which", lambda word: word if word.startswith("/") else None), \
                mock.patch("spanprof.record.runtime.linkage", linkage):
            return launched(words)

    def test_the_program_among_the_words(self):
        self.assertEqual(self.find(["mpirun", "-n", "3", "/bin/env", "/m", "5"], ["/m"]), "/m")
        self.assertEqual(self.find(["mpirun", "-n", "3", "/plain"]), "/plain")
        with self.assertRaisesRegex(Fault, "mpirun: none of its arguments is a program"):
            self.find(["mpirun", "-n", "3"])


if __name__ == "__main__":
    unittest.main()
