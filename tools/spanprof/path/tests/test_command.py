"""Unit tests, which need no compiler, runtime, browser or spanprof; in tools/:
python3 -m unittest discover -s spanprof/path/tests -t ."""
import os
import unittest

from spanprof.path import command
from spanprof.tests.in_folder import InFolder, answered
from spanprof.tests.proofs import with_a_proved_program

setUpModule = with_a_proved_program

TEXT = "# remark: untied, 1 time: span too low\nomptasks 1\nwork 2\ntask { # a.c:3\nwork 5\n}\nwork 1\n"
LARGE = """\
#!/bin/sh
case $1,$(cat) in
    span,*"work 1") printf 'tasks 1\\nsegments 3\\nwork 8\\nspan %d\\n' ;;
    places,*"work 1"*---*"0 1 2") printf 'place,segments,work,on_path,path,slack\\n0,1,2,1,2,0\\n1,1,5,1,5,0\\n2,1,1,0,0,4\\n' ;;
    *) echo "error: line 1: BadHeader"; exit 1 ;;
esac
"""


class Commands(InFolder):
    """spanprof_large knows one text."""

    def setUp(self):
        super().setUp()
        self.text = self.write("mine.tasks", TEXT)

    def reported(self, *words, span=7, large=LARGE):
        """The exit status, and what stands on standard output and standard error."""
        return answered(command.main, [self.text, *words], SPANPROF_LARGE=self.program("large", large % span))

    def test_a_table(self):
        self.assertEqual(self.reported(), (0, """\
warning: untied, 1 time: span too low
work 8, span 7, parallelism 1.1, 2 of 3 segments on a critical path
proved of this text: its work, span, this critical path and the sums by place (spanprof_large places)
 of span  of work  segments  place
   71.4%    62.5%         1  task at a.c:3
   28.6%    25.0%         1  the beginning
    0.0%    12.5%         0  after creating a task at a.c:3
""", ""))

    def test_csv(self):
        self.assertEqual(self.reported("--csv"), (0, """\
span,work,segments,place
5,5,1,task at a.c:3
2,2,1,the beginning
0,1,0,after creating a task at a.c:3
""", ""))

    def test_no_file(self):
        self.text = os.path.join(self.folder, "none")
        status, out, errors = self.reported()
        self.assertEqual((status, out, errors), (1, "", "spanprof-path: %s: no such file\n" % self.text))

    def test_a_text_that_is_refused(self):
        self.write("mine.tasks", "tasks")
        status, printed, said = self.reported()
        self.assertEqual((status, printed), (1, ""))
        self.assertRegex(said, "(?s)^spanprof-path: .*mine.tasks:1:1: BadHeader: .*\n    1 | tasks\n"
                               ".*: line 1: BadHeader\n$")

    def test_no_memory_for_the_rows(self):
        full = LARGE.replace("places,", "places,*) echo 'error: out of memory'; exit 3 ;;\nnever,")
        status, printed, said = self.reported(large=full)
        self.assertEqual((status, printed), (1, ""))
        self.assertRegex(said, "^spanprof-path: spanprof places: error: out of memory: use more memory .*\n$")


if __name__ == "__main__":
    unittest.main()
