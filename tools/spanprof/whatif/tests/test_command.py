import json
import os
import unittest

from spanprof.remarks import in_words
from spanprof.tests.in_folder import InFolder, answered
from spanprof.tests.proofs import with_a_proved_program
from spanprof.whatif import command
from spanprof.whatif.tests.made_up import SORT

setUpModule = with_a_proved_program

PROGRAM = """\
#!/bin/sh
text=$(cat)
tasks=3
case "$text" in
    *refused*) echo "error: line 1: BadWord"; exit 1 ;;
    *toolong*) tasks=9000 ;;
esac
case "$1" in
    span) printf 'tasks %d\\nsegments 8\\nwork %d\\nspan 60\\n' $tasks "$(echo "$text" | grep -c '^task')" ;;
    curve) echo threads,end,least,bound && seq "$3" | sed 's/$/,65,60,68/' ;;
    greedy) printf 'segment,start,end,thread\\n0,0,65,0\\n1,0,5,\\n' ;;
    --upto) printf 'threads,least,bound\\n2,60,68\\n8,60,61\\n' ;;
esac
"""
LITTLE_MEMORY = PROGRAM.replace("curve)", "curve) echo 'error: out of memory'; exit 1 ;;\n    never)")


class Commands(InFolder):
    """The program counts lines with the word task."""

    def setUp(self):
        super().setUp()
        self.text = self.write("mine.tasks", SORT)
        self.variables = {"SPANPROF_LARGE": self.program("large", PROGRAM)}

    def reported(self, *words):
        """The exit status, and what stands on standard output and standard error."""
        return answered(command.main, [self.text, *words], **self.variables)

    def test_a_change(self):
        self.assertEqual(self.reported("--drop-wait", "taskwait"), (0, """\
changed: 1 wait dropped: taskwait at sort.c:10
whether the program stays right without it is for you to judge: no text says what its tasks read and write
proved of the text as changed: the same segments, no more to wait for
in us                                text       changed text
segments                                8                  8    +0.0 %
work                                    5                  5    +0.0 %
span                                   60                 60    +0.0 %
2 threads, least                       60                 60    +0.0 %
2 threads, end                         65                 65    +0.0 %
2 threads, bound                       68                 68    +0.0 %
proved of the text, and of the changed text: spanprof has read both
""", ""))

    def test_json(self):
        reported = json.loads(self.reported("--split", "the beginning=2", "--threads", "1", "--json")[1])
        self.assertEqual(reported["text"]["threads"], {"1": {"least": 60, "bound": 68, "end": 65}})
        self.assertEqual(reported["changed text"]["by"], "spanprof")
        self.assertIn("a creation is assumed to cost 1: a quarter of the 1 pieces of code between two creations cost "
                      "at most that (measured)", reported["notes"])

    def test_the_changed_text_is_kept(self):
        kept = os.path.join(self.folder, "kept.tasks")
        self.assertEqual(self.reported("--drop-wait", "taskgroup", "-o", kept)[0], 0)
        with open(kept, encoding="utf-8") as file:
            text = file.read()
        self.assertTrue(in_words(text).startswith(
            '# recorded: {"program": "sort", "threads": 2, "clock": "cpu", "unit": "us"}\n'
            "# remark: a changed text, 1 wait dropped, taskgroup at sort.c:7: work and span too low or too high\n"
            "omptasks 1\nwork 4\ntask {  # sort.c:8\n"))
        self.assertEqual(sorted(os.listdir(self.folder)), ["kept.tasks", "large", "mine.tasks"])

    def test_a_text_beyond_the_limits(self):
        self.text = self.write("mine.tasks", SORT + "task { # toolong\n}\n")
        status, out, _ = self.reported("--cutoff", "1")
        self.assertEqual(status, 0)
        self.assertIn("2 threads, end                         65                 65    +0.0 %\n", out)

    def test_a_text_whose_table_is_too_large_for_the_memory(self):
        self.text = self.write("mine.tasks", SORT + "task { # toolong\n}\n")
        self.variables["SPANPROF_LARGE"] = self.program("large", LITTLE_MEMORY)
        status, out, _ = self.reported("--cutoff", "1")
        self.assertEqual(status, 0)
        self.assertNotIn("end  ", out)
        self.assertIn("2 threads, bound                       68                 68", out)
        self.variables["SPANPROF_LARGE"] = self.program("large", LITTLE_MEMORY.replace("out of memory", "BadWord"))
        self.assertEqual(self.reported("--cutoff", "1")[2], "spanprof-whatif: spanprof curve: error: BadWord\n")
        self.assertTrue(out.endswith("spanprof has read both; there was too little memory for a greedy schedule\n"))

    def test_the_changed_text_on_standard_output(self):
        status, out, errors = self.reported("--cutoff", "1", "-o", "-")
        self.assertEqual(status, 0)
        self.assertIn("omptasks 1", out)
        self.assertRegex(errors, "(?m)^span  ")
        self.assertNotIn("span  ", out)

    def test_a_place_list(self):
        sums = zip((1, 2, 2, 1, 1, 1, 1), (4, 30, 3, 6, 0, 3, 30))      # of segments and work
        rows = "".join("%d,%d,%d,0,0,9\\n" % (place, *both) for place, both in enumerate(sums))
        script = "#!/bin/sh\ncat > /dev/null\ncase $1 in\n    span) printf 'segments 9\\nwork 76\\nspan 64\\n' ;;\n" \
            "    *) printf 'place,segments,work,on_path,path,slack\\n%s' ;;\nesac\n" % rows
        self.variables["SPANPROF_LARGE"] = self.program("large", script)
        _, out, errors = self.reported("--places")
        self.assertEqual((out.split("\n")[1:3], errors), ([
            "            30  task at sort.c:8", "            30  after taskgroup at sort.c:7"], ""))
        self.assertIn("waits (--drop-wait):", out)

    def test_faults(self):
        for words, reported in ((["--drop-wait", "x"], "--drop-wait x: no taskwait or taskgroup of this name"),
                                (["--cutoff", "7"], "this changes nothing: 0 tasks left out"),
                                (["--cutoff", "1", "-o", self.text], "would be written over the text"),
                                (["--cutoff", "1", "-o", "/nowhere/x"], "spanprof-whatif: /nowhere/x: No such file")):
            status, out, errors = self.reported(*words)
            self.assertEqual((status, out), (1, ""))
            self.assertIn(reported, errors)

    def test_texts_that_are_none(self):
        self.text = self.write("mine.tasks", "omptasks 1 refused")
        status, out, errors = self.reported("--cutoff", "1")
        self.assertEqual((status, out), (1, ""))
        self.assertIn("mine.tasks:1:12: BadWord: unexpected `refused`\n", errors)
        self.assertTrue(errors.endswith("spanprof span: error: line 1: BadWord\n"))
        self.text = os.path.join(self.folder, "none")
        self.assertEqual(self.reported("--places")[2], "spanprof-whatif: %s: no such file\n" % self.text)

    def test_no_program(self):
        self.variables["SPANPROF_LARGE"] = "/nowhere/spanprof"
        self.assertIn("/nowhere/spanprof: No such file or directory; README.md says", self.reported("--places")[2])

    def test_a_program_that_tells_no_table(self):
        self.text = self.write("mine.tasks", SORT + "task { # toolong\n}\n")
        script = "#!/bin/sh\necho work 3\necho segments 20000\necho span 1\n"
        self.variables["SPANPROF_LARGE"] = self.program("large", script)
        self.assertEqual(self.reported("--cutoff", "1")[2], "spanprof-whatif: no bounds are known on 2 threads\n")

    def test_wrong_words(self):
        for words in ([], ["--threads", "0", "--places"],
                      ["--creating", "x", "--places"]):
            self.assertEqual(self.reported(*words)[0], 2)

    def test_a_text_that_says_nothing_of_more_threads(self):
        self.text = self.write("mine.tasks", SORT.replace('"threads": 2', '"threads": 1'))
        self.assertIn("on 8 threads: it was recorded on one thread, and says nothing about more",
                      self.reported("--cutoff", "1", "--threads", "8")[1])


if __name__ == "__main__":
    unittest.main()
