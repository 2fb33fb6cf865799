"""In tools/: python3 -m unittest discover -s spanprof/imports/tests -t ."""
import os
import unittest
from unittest import mock

from spanprof.diagnosis.output import output_of
from spanprof.imports.command import main, name_of
from spanprof.recording import TEXT, open_recording
from spanprof.tests.in_folder import InFolder, answered

REC = """Name: potrf
JobId: 1
WorkerId: 0
StartTime: 1
EndTime: 3

Name: trsm
JobId: 2
DependsOn: 1
WorkerId: 1
StartTime: %d
EndTime: %d
"""
RIGHT, TOO_SOON = REC % (3, 5), REC % (2, 4)
PROGRAM = """#!/bin/sh
cat > /dev/null
case $*,$1 in
    account,*) printf 'threads 2\\nelapsed 4000000\\nbusy 4000000\\ndelayed 0\\nstarved 4000000\\noutside 0\\n' ;;
    'account --rows,'*) printf 'segment,thread,ready,begin,end\\n0,0,0,0,0\\n1,0,0,0,2000000\\n2,0,0,0,0\\n'
           printf '3,1,2000000,2000000,4000000\\n4,0,0,0,0\\n' ;;
    *,places) printf 'place,segments,work,on_path,path,slack,delayed,starved\\n0,1,0,1,0,0,0,0\\n'
           printf '1,1,2000000,1,2000000,0,0,2000000\\n2,1,0,0,0,0,0,0\\n3,1,2000000,1,2000000,0,0,2000000\\n'
           printf '4,1,0,0,0,0,0,0\\n' ;;
    *,curve) printf 'threads,end,least,bound\\n2,4000000,4000000,4000000\\n4,4000000,4000000,4000000\\n'
           printf '16,4000000,4000000,4000000\\n64,4000000,4000000,4000000\\n1,4000000,4000000,4000000\\n' ;;
    *) printf 'tasks 2\\nsegments 5\\nwork 4000000\\nspan 4000000\\n' ;;
esac
"""


class Command(InFolder):
    def reported(self, *words, rec=RIGHT):
        path = self.write("tasks.rec", rec)
        program = self.program("program", PROGRAM)
        with mock.patch("signal.signal"):
            return answered(main, [path, "--out", os.path.join(self.folder, "mine"), *words], SPANPROF_LARGE=program)

    @property
    def recording(self):
        return os.path.join(self.folder, "mine.spanprof")

    def test_a_recording_and_what_more_threads_bring(self):
        status, out, errors = self.reported()
        self.assertEqual((status, errors), (0, ""))
        self.assertEqual(out.split("\n")[:3], [
            "mine: 2 tasks, 4.00 ms on 2 threads; work 4.00 ms, span 4.00 ms",
            "greedy schedules end at 4.00 ms on 2, 4.00 ms on 4, 4.00 ms on 16, 4.00 ms on 64 threads",
            "critical path: potrf (2.00 ms), trsm (2.00 ms)"])
        found = open_recording(self.recording)
        self.assertEqual((found.meta["imported"], found.meta["runtime"]["name"], found.meta["elapsed_ns"],
                          found.meta["threads"]["most"]), ("StarPU", "StarPU", 4000000, 2))
        with open(found.times, encoding="utf-8") as file:
            self.assertEqual(file.read(), "times 2 0 4000000\n0 0 0 0\n1 0 0 2000000\n2 0 0 0\n3 1 2000000 4000000\n"
                                          "4 0 0 0\n")

    def test_the_diagnosis_names_tasks_as_they_are_and_asks_for_no_other_run(self):
        self.reported()
        with mock.patch.dict(os.environ, SPANPROF_LARGE=os.path.join(self.folder, "program")):
            lines = output_of(open_recording(self.recording)).lines()
        self.assertIn("mine: 4.00 ms on 2 threads of StarPU.", lines[0])
        self.assertFalse([line for line in lines if "--full" in line or "task at" in line])

    def test_times_that_contradict_the_graph_are_left_out(self):
        status, out, errors = self.reported(rec=TOO_SOON)
        self.assertEqual((status, errors), (0, "spanprof-import: without the times of the run: trsm begins before "
                                               "potrf has ended, for which it waits\n"))
        self.assertTrue(out.startswith("mine: 2 tasks; work"))
        self.assertEqual(open_recording(self.recording).times, "")

    def test_none_is_replaced_unasked_and_a_fault_leaves_it(self):
        self.reported()
        with open(os.path.join(self.recording, TEXT), encoding="utf-8") as file:
            before = file.read()
        status, _, errors = self.reported(rec=TOO_SOON)
        self.assertEqual(status, 1)
        self.assertIn("mine.spanprof is there already; --force replaces it", errors)
        self.assertEqual(self.reported("--force", rec=RIGHT.replace("On: 1", "On: 2"))[0], 1)
        with open(os.path.join(self.recording, TEXT), encoding="utf-8") as file:
            self.assertEqual(file.read(), before)
        self.assertEqual(self.reported("--force")[0], 0)
        self.assertEqual(sorted(os.listdir(self.folder)), ["mine.spanprof", "program", "tasks.rec"])

    def test_what_goes_with_which_format(self):
        for words in (("--process", "1"), ("graph.dot",)):
            self.write("graph.dot")
            status, _, errors = self.reported(*(os.path.join(self.folder,
                                                             word) if "." in word else word for word in words))
            self.assertEqual(status, 1)
            self.assertIn("a graph is for a log of ninja, and --process for a trace", errors)

    def test_names_after_the_file(self):
        self.assertEqual([name_of(path) for path in ("x/.ninja_log", "trace.json.gz", "/a.b/tasks.rec", "...")],
                         ["ninja_log", "trace", "tasks", "imported"])


if __name__ == "__main__":
    unittest.main()
