"""Sums of groups and of taskloops."""
import unittest

from spanprof.conformance.generate.constructs import constructs
from spanprof.conformance.emit.tasks import Emitter
from spanprof.conformance.tests.helpers import body_of


def lines_of(text):
    return [line.strip() for line in Emitter(body_of(text)).lines]


class Sums(unittest.TestCase):
    def test_a_group(self):
        lines = lines_of("taskgroup { #: reduction\n task { task { } } for i 1 3 { task if(0) { } } }")
        self.assertEqual(lines[1:6], ["{ long sum_1 = 0;", "#pragma omp taskgroup task_reduction(+: sum_1)", "{",
                                      "segment_finish();", "#pragma omp task in_reduction(+: sum_1)"])
        self.assertEqual([line.removeprefix("#pragma omp task ") for line in lines if "in_reduction" in line],
                         ["in_reduction(+: sum_1)", "if(conformance_no) in_reduction(+: sum_1)"])
        self.assertIn("#pragma omp task", lines)
        self.assertEqual(lines.count("sum_1 += 1;"), 2)
        self.assertEqual(lines[-3:], ['expect("the sum of a group", sum_1, 4); }', "segment_start(11u);",
                                      "segment_finish();"])

    def test_a_taskloop(self):
        lines = lines_of("taskgroup { #: taskloop reduction\n for i 1 3 { task { taskgroup { task { } } } } }")
        self.assertIn("#pragma omp taskloop num_tasks(3) reduction(+: sum_1)", lines)
        self.assertEqual(lines.count("sum_1 += 1;"), 1)
        self.assertIn('expect("the sum of a taskloop", sum_1, 3); }', lines)

    def test_inner_groups_have_their_own(self):
        lines = lines_of("taskgroup { #: reduction\n task { } taskgroup { task { } } }")
        self.assertEqual(lines.count("sum_1 += 1;"), 1)
        self.assertIn('expect("the sum of a group", sum_1, 1); }', lines)

    def test_where_no_task_adds(self):
        for inner in ("taskwait", "task if(0) depend(in: a) { #: taskwait\n}", "taskgroup { task { } }"):
            text = "taskgroup { #: reduction\n " + inner + " }"
            self.assertNotIn("reduction", " ".join(lines_of(text)), inner)
            self.assertNotIn("reduction", constructs(body_of(text)))
        self.assertIn("reduction", constructs(body_of("taskgroup { #: reduction\n task { } }")))


if __name__ == "__main__":
    unittest.main()
