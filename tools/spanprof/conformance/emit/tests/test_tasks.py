"""Programs as C. Their segments are numbered as spanprof numbers them: a little walk over the C text counts them."""
import re
import unittest

from spanprof.conformance.emit.tasks import CREATES, WAITED_FOR, Emitter, c_text, roles_of
from spanprof.conformance.generate.constructs import constructs
from spanprof.conformance.generate.text_reader import read_program
from spanprof.conformance.judge.segments import Table


def lines_of(text):
    return [line.strip() for line in Emitter(read_program("omptasks 2\n" + text)).lines]


class Emission(unittest.TestCase):
    def test_worked_program(self):
        self.assertEqual(lines_of("work 5 task { work 3 } taskwait"), [
            "segment_start(0u);", "segment_finish();", "#pragma omp task", "{", "segment_start(1u);",
            "segment_finish();", "}", "segment_start(2u);", "segment_finish();", "#pragma omp taskwait",
            "segment_start(3u);", "segment_finish();"])

    def test_clauses(self):
        lines = lines_of("task if(0) final(1) depend(in: a, b[2]) depend(out: a) { #: untied mergeable priority(3)\n}"
                         "task if(0) final(1) { }")
        self.assertIn("#pragma omp task untied mergeable priority(3) if(conformance_no) final(conformance_yes) "
                      "depend(in: at_a, at_b_[0]) depend(out: at_a)", lines)
        self.assertIn("#pragma omp task if(0) final(1)", lines)

    def test_taskwait_with_depend(self):
        lines = lines_of("task if(0) depend(in: a) { #: taskwait\n} taskwait")
        self.assertEqual(lines[1:5], ["segment_finish();", "#pragma omp taskwait depend(in: at_a)", "segment_pass(1u);",
                                      "segment_start(2u);"])
        self.assertIn("#pragma omp task if(conformance_no) depend(in: at_a)",
                      lines_of("task if(0) depend(in: a) { #: taskwait\n work 1 taskwait }"))

    def test_segments_in_loops(self):
        lines = lines_of("for i 1 3 { for j 0 1 { taskwait } task { } } taskwait")
        self.assertIn("segment_start(1u + 4u * (unsigned)(v_i - 1) + 1u * (unsigned)(v_j - 0));", lines)
        self.assertIn("segment_start(3u + 4u * (unsigned)(v_i - 1));", lines)
        self.assertIn("segment_start(13u);", lines)

    def test_subscripts(self):
        lines = lines_of("for i 0 3 { task depend(in: x[i-1]) depend(out: x[i]) { } }")
        self.assertIn("#pragma omp task depend(in: at_x_[v_i + 0]) depend(out: at_x_[v_i + 1])", lines)

    def test_taskloop_with_its_group(self):
        lines = lines_of("taskgroup { #: taskloop\n for i 0 2 { task { work 1 } } }")
        self.assertEqual(lines, [
            "segment_start(0u);", "segment_finish();",
            "for (unsigned turn = 1; turn <= 3; turn++) segment_pass(0u + 2u * turn);",
            "#pragma omp taskloop num_tasks(3)", "for (int v_i = 0; v_i <= 2; v_i++) {",
            "if (!is_turn((long)v_i, 0, 2)) continue;",
            "segment_start(1u + 2u * (unsigned)(v_i - 0));", "segment_finish();", "}", "segment_start(7u);",
            "segment_finish();"])

    def test_taskloop_without_a_group(self):
        lines = lines_of("for i 0 2 { #: taskloop\n task { } } taskwait")
        self.assertIn("for (unsigned turn = 1; turn <= 2; turn++) segment_pass(0u + 2u * turn);", lines)
        self.assertIn("#pragma omp taskloop num_tasks(3) nogroup", lines)
        self.assertIn("segment_start(6u);", lines)
        self.assertIn("segment_start(7u);", lines)

    def test_taskloops_count_in_several_ways(self):
        def head(first, last):
            lines = lines_of(f"for i {first} {last} {{ #: taskloop\n task {{ }} }}")
            return lines[lines.index(next(line for line in lines if "taskloop" in line)) + 1]

        self.assertEqual(head(1, 3), "for (unsigned long long v_i = 1; v_i <= 3ull * conformance_yes; v_i++) {")
        self.assertEqual(head(1, 4), "for (int v_i = 4; v_i >= 1; v_i--) {")
        self.assertEqual(head(1, 5), "for (unsigned long long v_i = 5ull * conformance_yes; v_i >= 1; v_i--) {")
        self.assertEqual(head(0, 1), "for (int v_i = 0; v_i <= 1; v_i++) {")

    def test_chunks_of_a_taskloop(self):
        def clause(form):
            lines = lines_of(f"for i 0 2 {{ #: taskloop {form}\n task {{ }} }}")
            return next(line for line in lines if "taskloop" in line)

        self.assertEqual(clause("any"), "#pragma omp taskloop nogroup")
        self.assertEqual(clause("grainsize(strict:2)"),
                         "#pragma omp taskloop grainsize(STRICT 2) nogroup firstprivate(own_turn)")

    def test_copied(self):
        lines = lines_of("task { } task { #: copied\n work 1 }")
        self.assertEqual(lines[8:16], [
            "segment_finish();", "{ unsigned copied[COPIED_LENGTH]; copied[0] = 1u;",
            "#pragma omp task firstprivate(copied)", "{", "segment_start(3u);",
            'expect("data of a task", copied[0], 1);', "segment_finish();", "} }"])

    def test_copied_by_a_taskloop(self):
        lines = lines_of("taskgroup { #: taskloop reduction\n for i 1 3 { task { #: copied\n work 1 } } }")
        self.assertIn("#pragma omp taskloop num_tasks(3) reduction(+: sum_1) firstprivate(copied)", lines)
        self.assertIn('expect("data of a task", copied[0], 0);', lines)

    def test_target(self):
        lines = lines_of("task depend(out: a) { #: target\n work 1 } taskwait")
        self.assertEqual(lines[2:12], ["#ifdef HAS_HOST_TARGET", "if (conformance_in_region) {",
                                       "#pragma omp target nowait depend(out: at_a)", "{ segment_pass_on_host(1u); }",
                                       "} else", "#endif", "{", "#pragma omp task depend(out: at_a)",
                                       "{ segment_pass_on_host(1u); }", "}"])
        self.assertFalse([line for line in lines_of("task { #: target\n taskwait }") if "target" in line])

    def test_taskloop_in_a_final_task_is_a_loop(self):
        lines = lines_of("task final(1) { for i 0 2 { #: taskloop\n task { } } }")
        self.assertFalse([line for line in lines if "taskloop" in line])

    def test_taskyield(self):
        lines = lines_of("taskgroup { #: taskyield\n}")
        self.assertEqual(lines[1:4], ["segment_finish();", "#pragma omp taskyield", "segment_start(1u);"])

    def test_regions(self):
        lines = lines_of("work 1 taskgroup { #: parallel\n task { taskwait } task { } }")
        self.assertEqual(lines[1:5], ["segment_finish();", "segment_pass(3u);", "segment_pass(5u);",
                                      "#pragma omp parallel num_threads(threads)"])
        self.assertLess(lines.index("case 0: {"), lines.index("segment_start(2u);"))
        self.assertLess(lines.index("case 1: {"), lines.index("segment_start(4u);"))
        self.assertEqual(lines[-2:], ["segment_start(6u);", "segment_finish();"])

    def test_region_beside_other_statements_is_a_group(self):
        self.assertIn("#pragma omp taskgroup", lines_of("taskgroup { #: parallel\n task { } } taskwait"))

    def test_roles(self):
        table = Table(read_program("omptasks 1 task { work 1 } taskwait"))
        self.assertEqual(roles_of(table), [CREATES, WAITED_FOR, 0, 0])

    def test_whole_file(self):
        body = read_program("omptasks 1 task depend(out: x) { work 4 } taskwait")
        text = c_text(body, Table(body), [[], [0], [0], [1, 2]])
        self.assertFalse(re.findall(r"@[A-Z_]+@", text))
        self.assertIn("static char at_x;", text)
        self.assertIn("cost[] = {0, 4, 0, 0};", text)
        self.assertIn("preds_begin[] = {0, 0, 1, 2, 4};", text)

    def test_constructs(self):
        body = read_program("omptasks 2 task if(0) depend(in: a) depend(out: a) { #: priority(2)\n}"
                            "for i 0 1 { #: taskloop\n task { } }")
        self.assertEqual(constructs(body), {"task", "tied", "if(0)", "if(0) with depend", "depend(in)", "depend(out)",
                                            "repeated item", "priority", "taskloop"})

    def test_constructs_of_taskloops_and_targets(self):
        body = read_program("omptasks 2 task { #: target\n } for i 0 1 { #: taskloop any\n task { } }"
                            "for i 0 1 { #: taskloop num_tasks(strict:1)\n task { } }")
        self.assertNotIn("priority in a task", constructs(read_program("omptasks 1 task { #: priority(2)\n}")))
        self.assertIn("priority in a task",
                      constructs(read_program("omptasks 1 task { task { #: priority(2)\n} }")))
        self.assertIn("reduction in a task",
                      constructs(read_program("omptasks 1 task { taskgroup { #: reduction\n task { } } }")))
        self.assertEqual(constructs(body), {"task", "tied", "target", "taskloop", "taskloop of any size", "num_tasks",
                                            "strict"})


if __name__ == "__main__":
    unittest.main()
