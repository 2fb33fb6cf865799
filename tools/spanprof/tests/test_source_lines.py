import unittest

from spanprof.program_text import Segment
from spanprof.source_lines import Stretch, after_directive, line_of, statement_below, statement_end, stretch_of
from spanprof.tests.columns import code_of

CODE = code_of([Segment(0, "", "", ""), Segment(1, "a.c:5", "", ""), Segment(0, "", "creating a task", "a.c:5"),
                Segment(0, "", "taskwait", "a.c:9")])

FILE = ["void f() {", "#pragma omp taskgroup", "    {", "        g();", "#pragma omp task", "        h(1);",
        "        i();", "    }", "#pragma omp taskwait", "    j();", "}"]


class Lines(unittest.TestCase):
    def test_of_a_construct(self):
        self.assertEqual(line_of("after taskwait at sort.c:33"), ("sort.c", 33))
        self.assertEqual(line_of("src/a.c:7, a part"), ("a.c", 7))
        self.assertEqual(line_of("task at b.c:6 called from f(int, long) at a.c:10, a part"), ("b.c", 6))
        self.assertIsNone(line_of("the beginning"))
        self.assertIsNone(line_of(""))

    def test_where_segments_end(self):
        self.assertEqual([CODE.ends[number] for number in CODE.of], [{"a.c:5": 1}, {"": 1}, {"a.c:9": 1}, {"": 1}])

    def test_from_the_place_to_the_end(self):
        ends = [CODE.ends[number] for number in CODE.of]
        self.assertEqual(stretch_of("after creating a task at a.c:5", ends[2]), Stretch("a.c", 5, 9))
        self.assertEqual(stretch_of("task at a.c:5", ends[1]), Stretch("a.c", 5, 5))
        self.assertIsNone(stretch_of("the beginning", ends[0]))

    def test_a_loop_ends_above_and_another_file_elsewhere(self):
        self.assertEqual(stretch_of("after x at a.c:9", {"a.c:5": 1}), Stretch("a.c", 9, 9))
        self.assertEqual(stretch_of("after x at a.c:9", {"b.c:12": 1}), Stretch("a.c", 9, 9))

    def test_in_the_file(self):
        ends = [CODE.ends[number] for number in CODE.of]
        self.assertEqual(stretch_of("task at a.c:5", ends[1], FILE), Stretch("a.c", 6, 6))
        self.assertEqual(stretch_of("after creating a task at a.c:5", ends[2], FILE), Stretch("a.c", 7, 9))
        self.assertEqual(stretch_of("after taskgroup at a.c:2", {"a.c:5": 1}, FILE), Stretch("a.c", 9, 9))
        self.assertEqual(stretch_of("after taskwait at a.c:9", ends[3], FILE), Stretch("a.c", 10, 10))
        self.assertEqual(stretch_of("task at a.c:99", ends[1], FILE), Stretch("a.c", 99, 99))

    def test_what_ends_a_block_goes_on_elsewhere(self):
        lines = ["for (;;) {", "#pragma omp task", "    f();", "#pragma omp taskwait", "}", "", "int g() {"]
        for place in ("after taskwait at a.c:4", "after creating a task at a.c:2"):
            self.assertEqual(stretch_of(place, {"": 1}, lines), Stretch("a.c", 4, 4))

    def test_statements(self):
        self.assertEqual(statement_end(["for (int i = 0; i < 3; i++) {", "  f(\"}\");  // }", "}", "g();"], 1), 3)
        self.assertEqual(statement_end(["f(a,", "  b);", "g();"], 1), 2)
        self.assertEqual(statement_end(["#pragma omp x", "{", "  h();", "}"], 1), 4)
        self.assertEqual(after_directive(["#pragma omp task \\", "  untied", "f();"], 1), 3)

    def test_below_a_directive(self):
        lines = ["#ifdef NEW", "#pragma omp for \\", "    schedule(dynamic)", "#else", "#pragma omp for", "#endif", "",
                 "for (;;)", "  f();"]
        self.assertEqual([statement_below(lines, number) for number in (2, 5)], [8, 8])
        self.assertEqual(statement_below(["#pragma omp barrier"], 1), 2)

    def test_words(self):
        self.assertEqual([Stretch("a.c", 5, last).words for last in (5, 9)], ["line 5", "lines 5 to 9"])
