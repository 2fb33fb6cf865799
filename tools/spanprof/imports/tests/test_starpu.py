"""In tools/: python3 -m unittest discover -s spanprof/imports/tests -t ."""
import unittest

from spanprof.command import Fault
from spanprof.imports.starpu import read
from spanprof.tests.in_folder import InFolder

A = "Name: potrf\nJobId: 1\nWorkerId: 0\nStartTime: 1.500000\nEndTime: 2.250001\nMPIRank: -1\n"
B = "Model: trsm\nJobId: 2\nDependsOn: 1\nWorkerId: 1\nStartTime: 2.5\nEndTime: 3.5\nMPIRank: -1\n"
SYNC = "Name: sync\nJobId: 3\nDependsOn: 2 1\n"


class StarPU(InFolder):
    def read(self, *parts):
        return read(self.write("tasks.rec", "\n".join(parts)))

    def test_names_times_workers_and_dependences(self):
        reported = self.read(A, "Control: WontUse\nJobId: 9\n", B, SYNC)
        self.assertEqual([(one.name, one.begin, one.end, one.before) for one in reported.tasks], [
            ("potrf", 1500000, 2250001, []), ("trsm", 2500000, 3500000, [0]), ("sync", None, None, [1, 0])])
        self.assertEqual([one.worker for one in reported.tasks], [("-1", "0"), ("-1", "1"), None])
        self.assertEqual(reported.tool, "StarPU")

    def test_a_task_may_stand_before_those_that_it_depends_on(self):
        self.assertEqual(self.read(SYNC, B, A).tasks[0].before, [1, 2])

    def test_faults_name_the_line(self):
        for parts, words in (
                ((A, SYNC), r"tasks.rec:10: sync depends on job 2, which is not in the file"),
                ((A, A), r"tasks.rec:9: a second task with the JobId 1"),
                ((A, "Name: x\n"), r"tasks.rec:8: a task without a JobId"),
                ((A.replace("1.5", "1,5"),), r"tasks.rec:4: `1,500000` is no time"),
                ((A.replace("1.5", "-1.5"),), r"tasks.rec:1: potrf begins at a negative time"),
                ((A.replace("1.5", "9.5"),), r"tasks.rec:1: potrf ends before it begins"),
                ((A, "\x7fELF"), r"tasks.rec:8: `.ELF` is no field, such as `JobId: 5`")):
            with self.assertRaisesRegex(Fault, words):
                self.read(*parts)


if __name__ == "__main__":
    unittest.main()
