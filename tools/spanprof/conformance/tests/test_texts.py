"""Programs, their texts, and how their tasks are written."""
import unittest

from spanprof.conformance.emit.forms import form_of
from spanprof.conformance.generate.directed import directed_programs, first_comment, kinds_of
from spanprof.conformance.generate.program import (Group, Index, Item, Loop, Task, Wait, Work, in_variant, nodes,
                                                   segment_count)
from spanprof.conformance.generate.text_reader import Unreadable, read_program
from spanprof.conformance.generate.text_writer import text_of

TEXT = """omptasks 2
work 5
task if(0) final(1) depend(in: a, b[2]) depend(out: a) { #: untied priority(3)
    work 1
}
for i 0 3 { #: taskloop
    task {
        task depend(inoutset: b[i-1]) { }
    }
}
taskgroup { #: taskyield
}
taskwait
"""


class Texts(unittest.TestCase):
    def test_text_comes_back(self):
        self.assertEqual(text_of(read_program(TEXT)), TEXT)

    def test_tree_of_a_text(self):
        task = read_program(TEXT)[1]
        items = (Item("in", "a"), Item("in", "b", Index(None, 2)), Item("out", "a"))
        self.assertEqual(task, Task(True, True, items, (Work(1),), ("untied", "priority(3)")))

    def test_comments_and_clauses_that_mean_nothing(self):
        text = "omptasks 1 # a comment { }\n task if(1) { } # untied\n"
        self.assertEqual(read_program(text), (Task(False, False, (), ()),))

    def test_header_is_that_of_the_least_version(self):
        self.assertTrue(text_of((Work(1), Wait())).startswith("omptasks 1\n"))
        self.assertTrue(text_of((Loop("i", 0, 1, ()),)).startswith("omptasks 2\n"))

    def test_what_is_refused(self):
        for text in ("omptasks 3", "omptasks 1 }", "omptasks 1 task {", "omptasks 1 taskgroup { #: for\n}",
                     "omptasks 1 task { #: shared\n}", "omptasks 1 task x { }",
                     "omptasks 2 for i 1 3 { #: taskloop num_tasks(0)\n task { } }",
                     "omptasks 2 for i 1 3 { #: for grainsize(2)\n}"):
            with self.assertRaises(Unreadable, msg=text):
                read_program(text)

    def test_segments_are_counted(self):
        self.assertEqual(segment_count(()), 0)
        self.assertEqual(segment_count(read_program(TEXT)), 2 + 4 * 4 + 1 + 1)

    def test_forms_hold_where_the_body_allows_them(self):
        task, waiting = Task(False, False, (), ()), Task(False, False, (Item("in", "a"),), ())
        loop = Loop("i", 0, 2, (task,))
        self.assertEqual(form_of(Group((loop,), "taskloop")), "taskloop")
        self.assertEqual(form_of(Group((loop, Wait()), "taskloop")), "taskgroup")
        self.assertEqual(form_of(Group((Loop("i", 0, 2, (waiting,)),), "taskloop")), "taskgroup")
        self.assertEqual(form_of(Group((task, task), "parallel")), "parallel")
        self.assertEqual(form_of(Group((task, waiting), "parallel")), "taskgroup")
        self.assertEqual(form_of(Group((task,), "taskyield")), "taskgroup")
        self.assertEqual(form_of(Loop("i", 1, 0, (task,), "taskloop")), "for")


class Variants(unittest.TestCase):
    def test_tied_untied_and_mixed(self):
        body = read_program("omptasks 1 task { #: untied mergeable\n task { } } task { }")
        clauses = {variant: [node.clauses for node in nodes(in_variant(body, variant))]
                   for variant in ("tied", "untied", "mixed")}
        self.assertEqual(clauses["tied"], [("mergeable",), (), ()])
        self.assertEqual(clauses["untied"], [("untied", "mergeable"), ("untied",), ("untied",)])
        self.assertEqual(clauses["mixed"], [("untied", "mergeable"), (), ("untied",)])


class Directed(unittest.TestCase):
    def test_each_says_what_it_shows(self):
        for name, body in directed_programs():
            self.assertTrue(first_comment(name), name + ".tasks does not begin with a comment that says what it shows")
            self.assertTrue(body, name)
            self.assertEqual(read_program(text_of(body)), body, name)

    def test_kinds(self):
        kinds = {name: kinds_of(body) for name, body in directed_programs()}
        self.assertEqual(kinds["depend_out_then_in"], {"out", "in"})
        self.assertEqual(kinds["taskwait_child"], set())


if __name__ == "__main__":
    unittest.main()
