import unittest

from spanprof.source_lines import (block_around, construct_of, directive_above, directive_line, ends_a_turn,
                                   is_between_halves, is_of_some_turns, own_item)

BATCHES = """int main() {
    for (int i = 0; i < 50; i++) {
#pragma omp task shared(all)
        shrink(all[i]);
        if (i % 5 == 4) {
#pragma omp taskwait
        }
    }
}

void steps() {
    for (int step = 0; step < 9; step++) {
        for (int i = 0; i < 50; i++)
#pragma omp task
            relax(i);
        if (step % 2) {
#pragma omp taskwait
        }
#pragma omp taskwait
    }
}""".split("\n")


class Directives(unittest.TestCase):
    def test_constructs(self):
        self.assertEqual([construct_of(name) for name in (
            "task at a.c:1", "after creating a task at a.c:1", "taskwait at a.c:2", "after taskwait at a.c:2", "a.c:9",
            "turns of the loop at a.c:3")], ["task", "task", "taskwait", "taskwait", "parallel", "for"])
        self.assertEqual([construct_of(name) for name in ("tasks_in_loop.c:9", "code of one of the region's threads at "
                                                          "loop.c:9")], ["parallel", "parallel"])

    def test_a_line_before_the_directive(self):
        self.assertEqual(directive_line(BATCHES, 1, "task"), 3)
        self.assertEqual(directive_line(BATCHES, 3, "task"), 3)
        self.assertEqual(directive_line(BATCHES, 4, "taskwait"), 6)

    def test_a_line_after_the_directive(self):
        self.assertEqual(directive_line(BATCHES, 7, "task"), 3)

    def test_a_line_inside_the_statement_of_a_directive(self):
        """The first task's statement has a task in it, and a loop follows another one."""
        lines = ["void f() {", "#pragma omp task", "  {", "    grow(1);", "#pragma omp task", "    grow(2);", "  }",
                 "#pragma omp parallel for", "  for (int i = 0; i < 9; i++)", "    grow(i);", "  grow(3);",
                 "#pragma omp parallel for", "  for (;;) {", "  }", "}"]
        self.assertEqual([directive_line(lines, number, "task", True) for number in (2, 4, 6, 9)], [2, 2, 5, 5])
        self.assertEqual([directive_line(lines, number, "for", True) for number in (9, 10, 11)], [8, 8, 12])
        self.assertEqual([directive_line(lines, number, "for") for number in (9, 10, 11)], [8, 8, 12])
        # of gcc's code on another runtime the line may be that of the statement before the inner task
        self.assertEqual(directive_line(lines, 4, "task"), 5)

    def test_a_line_inside_a_statement_with_a_directive_for_each_condition(self):
        loop = ["  for (int i = 0; i < 9; i++) {", "#ifdef LESS", "    grow(1);", "#endif", "    grow(i);", "  }",
                "#pragma omp for", "  for (;;) {", "  }", "}"]
        either = ["void f() {", "#ifdef FIXED", "#pragma omp for nowait", "#else", "#pragma omp for", "#endif"]
        for above, first in ((either, 0), (["void f() {", "#ifndef ONE", "#pragma omp for", "#endif"], 3),
                             (["void f() {", "#pragma omp for"], 2)):
            lines, begin = above + loop, len(above) + 1
            self.assertEqual([directive_line(lines, begin + more, "for", True) for more in (0, 2, 4)],
                             [first or begin, first or begin + 2, first or begin + 4])

    def test_the_directive_right_above_a_statement(self):
        lines = ["#pragma omp for \\", "    schedule(dynamic)", " // rows", "for (;;) work();", "more();", "for (;;) {"]
        self.assertEqual([directive_above(lines, number) for number in (4, 6)], [1, 6])
        self.assertEqual(directive_above(lines[3:], 1), 1)

    def test_a_directive_of_another_function_is_none(self):
        self.assertEqual(directive_line(BATCHES[9:], 4, "taskgroup"), 4)
        self.assertEqual(directive_line(BATCHES[:12], 12, "task"), 12)

    def test_a_directive_that_may_not_be_compiled_is_none(self):
        lines = ["  f();", "#ifdef FAST", "#pragma omp task", "#else", "#pragma omp task if(0)", "#endif",
                 "#pragma omp taskwait"]
        self.assertEqual(directive_line(lines, 1, "task"), 1)
        self.assertEqual(directive_line(lines, 1, "taskwait"), 7)
        self.assertEqual(directive_line(lines[3:], 1, "taskwait"), 4)

    def test_blocks(self):
        self.assertEqual([block_around(BATCHES, number) for number in (2, 4, 6, 8)], [1, 2, 5, 2])

    def test_a_wait_in_some_turns_of_the_loop_that_makes_the_tasks(self):
        self.assertTrue(is_of_some_turns(BATCHES, 6))

    def test_what_each_thread_has_next_to_others(self):
        lines = ["void assign(void) {", "#pragma omp parallel", "  {", "    int me = omp_get_thread_num();",
                 "    struct sums *mine = part[me];", "#pragma omp for", "    for (int i = 0; i < n; i++)",
                 "      mine[near(i)].x += x[i];", "  }", "}"]
        self.assertEqual(own_item(lines, 7, 8), ("part[me]", 5))
        self.assertEqual(own_item([*lines[:7], "      part[me] += x[i];", "  }"], 7, 8), ("part[me]", 8))
        self.assertIsNone(own_item([*lines[:7], "      s += x[i];", "  }", "  part[me] = s;", "}"], 7, 8))
        self.assertIsNone(own_item([*lines[:7], "      part[8 * me] += x[i];", "  }"], 7, 8))
        self.assertEqual(own_item(["  n[omp_get_thread_num()]++;"], 1, 1), ("n[omp_get_thread_num()]", 1))

    def test_a_wait_that_ends_turns_with_data_of_their_own(self):
        def is_one(turns, task, behind="}"):
            return ends_a_turn([turns, "  for (int b = 0; b < 6; b++)", "#pragma omp task", task,
                                "#pragma omp taskwait", "", behind], 5)
        turns = "for (long shelf = 0; shelf < 30; shelf++) {"
        self.assertTrue(is_one(turns, "found[shelf * 6 + b] = box(n);"))
        self.assertTrue(is_one("for (const auto &shelf : shelves) {", "box(shelf, b);"))
        self.assertFalse(is_one(turns, "found[b] = box(n);"))                   # the same data in each turn
        self.assertFalse(is_one(turns, "relax(grid[shelf % 2], b);"))           # two of them
        self.assertFalse(is_one(turns, "found[shelf] = box(n);", "use(found);"))
        self.assertFalse(is_one("while (n--) {", "box(n);"))
        self.assertFalse(ends_a_turn(BATCHES, 19))

    def test_a_wait_between_two_halves(self):
        lines = ["void sort(int *a, int n) {", "#pragma omp task", "  sort(a, n / 2);", "#ifndef FIXED",
                 "#pragma omp taskwait", "#endif", "#pragma omp task // the rest", "  sort(a + n / 2, n - n / 2);",
                 "#pragma omp taskwait", "  merge(a, n);", "}"]
        self.assertTrue(is_between_halves(lines, 5))
        self.assertFalse(is_between_halves(lines, 9))
        self.assertFalse(is_between_halves([*lines[:7], "  merge(a, n);", *lines[8:]], 5))
        self.assertFalse(is_between_halves([*lines[:7], lines[2], *lines[8:]], 5))

    def test_a_wait_behind_the_loop_that_makes_the_tasks(self):
        self.assertFalse(is_of_some_turns(BATCHES, 17))
        self.assertFalse(is_of_some_turns(BATCHES, 19))
        self.assertFalse(is_of_some_turns([], 19))


if __name__ == "__main__":
    unittest.main()
