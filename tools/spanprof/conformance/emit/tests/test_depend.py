"""Depend items in C: plain, by iterators and by depend objects."""
import unittest

from spanprof.conformance.emit.tasks import Emitter
from spanprof.conformance.tests.helpers import body_of


def lines_of(text):
    return [line.strip() for line in Emitter(body_of(text)).lines]


def pragmas_of(text):
    return [line.removeprefix("#pragma omp ") for line in lines_of(text) if line.startswith("#pragma")]


class Items(unittest.TestCase):
    def test_mutexinoutset(self):
        self.assertEqual(pragmas_of("task depend(inoutset: a) depend(in: b) { #: mutexinoutset\n}"
                                    "task depend(inoutset: a) { }"),
                         ["task depend(mutexinoutset: at_a) depend(in: at_b)", "task depend(inoutset: at_a)"])

    def test_iterators_over_places_one_after_another(self):
        self.assertEqual(pragmas_of("task depend(in: x[1], x[2], x[4], a) depend(out: x[3]) { #: iterator\n}"),
                         ["task depend(iterator(at = 0:2), in: at_x_[0 + at]) depend(iterator(at = 0:1), in: "
                          "at_x_[3 + at]) depend(in: at_a) depend(iterator(at = 0:1), out: at_x_[2 + at])"])

    def test_iterator_in_a_loop(self):
        self.assertIn("task depend(iterator(at = 0:2), in: at_x_[v_i + 0 + at])",
                      pragmas_of("for i 0 2 { task depend(in: x[i-1], x[i]) { #: iterator\n} }"))

    def test_depend_objects(self):
        lines = lines_of("task if(0) depend(in: a) depend(out: b[1]) { #: depobj untied\n}")
        self.assertEqual(lines[2:6], ["{ omp_depend_t object_0, object_1;", "#pragma omp depobj(object_0) "
                                      "depend(in: at_a)", "#pragma omp depobj(object_1) depend(out: at_b_[0])",
                                      "#pragma omp task untied if(conformance_no) depend(depobj: object_0, object_1)"])
        self.assertEqual(lines[-5:-2], ["END_OF_OBJECT(object_0)", "END_OF_OBJECT(object_1)", "}"])

    def test_objects_without_items(self):
        self.assertEqual(pragmas_of("task { #: depobj\n}"), ["task"])


class Detached(unittest.TestCase):
    def test_an_event_completes_the_task(self):
        lines = lines_of("task depend(out: a) { #: detach untied\n work 1 task if(0) { work 2 } work 3 }")
        self.assertEqual(lines[2:-3], [
            "{ omp_event_handle_t event = (omp_event_handle_t)0;",
            "#pragma omp task detach(event) untied depend(out: at_a)", "{", "segment_start(1u);", "segment_finish();",
            "#pragma omp task firstprivate(event)", "{", "segment_start(2u);", "segment_finish();", "segment_pass(3u);",
            "omp_fulfill_event(event);", "}", "}"])
        self.assertEqual(lines[-2:], ["segment_start(4u);", "segment_finish();"])

    def test_where_the_body_does_not_allow_it(self):
        inner = "task if(0) { }"
        for text in (f"task {{ #: detach mergeable\n {inner} }}", f"task if(0) {{ #: detach\n {inner} }}",
                     f"task {{ #: detach\n {inner} {inner} }}", "task { #: detach\n task { } }",
                     f"task {{ #: detach\n task if(0) {{ {inner} }} }}", "task { #: detach\n}",
                     f"task final(1) {{ task {{ #: detach\n {inner} }} }}"):
            self.assertNotIn("omp_fulfill_event(event);", lines_of(text), text)


class Chunks(unittest.TestCase):
    def test_clauses_of_taskloops(self):
        self.assertIn("taskloop grainsize(2) firstprivate(own_turn)",
                      pragmas_of("taskgroup { #: taskloop grainsize(2)\n for i 0 4 { task { } } }"))
        self.assertIn("taskloop num_tasks(2) nogroup firstprivate(own_turn)",
                      pragmas_of("for i 0 4 { #: taskloop num_tasks(2)\n task { } }"))

    def test_each_turn_tells_of_which_task_it_is(self):
        lines = lines_of("for i 0 4 { #: taskloop num_tasks(2)\n task { } }")
        begin = lines.index("{ unsigned own_turn = 0;")
        self.assertEqual(lines[begin + 4:begin + 8],
                         ["taskloop_turn(&own_turn, 1u + 2u * (unsigned)(v_i - 0));",
                          "segment_start(1u + 2u * (unsigned)(v_i - 0));", "segment_finish();", "} }"])
        strict = lines_of("for i 0 4 { #: taskloop num_tasks(strict:2)\n task { } }")
        self.assertIn("if (KNOWS_STRICT) taskloop_turn(&own_turn, 1u + 2u * (unsigned)(v_i - 0));", strict)

    def test_where_no_turn_tells(self):
        for form, task in (("", "task { }"), (" any", "task { }"), (" num_tasks(2)", "task { #: mergeable\n }")):
            lines = lines_of(f"for i 0 4 {{ #: taskloop{form}\n {task} }}")
            self.assertNotIn("own_turn", " ".join(lines))

    def test_where_the_body_does_not_allow_them(self):
        self.assertEqual(pragmas_of("for i 0 4 { #: taskloop num_tasks(2)\n taskwait }"), ["taskwait"])


if __name__ == "__main__":
    unittest.main()
