"""Shrinking, of programs whose failing is decided here."""
import unittest

from spanprof.conformance.generate.program import Loop, Task, Wait, Work, nodes, segment_count
from spanprof.conformance.run.reproduce import Shrinker, Trial, fades, smaller, unrolled, without_costs
from spanprof.conformance.tests.helpers import body_of

LARGE = body_of("""work 8
task depend(in: a) { work 4 task if(0) final(1) depend(out: a, b) { #: untied priority(3)
 } }
for i 0 5 { taskgroup { task depend(inout: x[i]) { taskwait work 20 } } }
taskgroup { #: taskyield
} taskwait""")


def has(body, kind, test=lambda node: True):
    return any(isinstance(node, kind) and test(node) for node in nodes(body))


class Smaller(unittest.TestCase):
    def test_each_step_is_smaller_and_still_a_program(self):
        for candidate in smaller(LARGE):
            self.assertNotEqual(candidate, LARGE)
            self.assertLessEqual(segment_count(candidate), segment_count(LARGE))

    def test_the_whole_is_left_out_first(self):
        self.assertEqual(next(iter(smaller(LARGE))), ())

    def test_one_step_of_each_kind(self):
        steps = set(smaller(body_of("task if(0) final(1) depend(in: a) { #: untied\n work 4 }")))
        for text in ("work 4", "task final(1) depend(in: a) { #: untied\n work 4 }",
                     "task if(0) depend(in: a) { #: untied\n work 4 }", "task if(0) final(1) { #: untied\n work 4 }",
                     "task if(0) final(1) depend(in: a) { work 4 }",
                     "task if(0) final(1) depend(in: a) { #: untied\n work 2 }"):
            self.assertIn(body_of(text), steps, text)

    def test_loops(self):
        steps = set(smaller(body_of("for i 2 4 { #: taskloop\n task { } }")))
        for text in ("for i 2 2 { #: taskloop\n task { } }", "for i 2 3 { #: taskloop\n task { } }",
                     "for i 2 4 { task { } }"):
            self.assertIn(body_of(text), steps, text)
        one = body_of("for i 2 2 { task depend(in: x[i+1]) { } }")
        self.assertIn(body_of("task depend(in: x[3]) { }"), set(smaller(one)))

    def test_unrolling_leaves_other_variables(self):
        loop = body_of("for i 1 1 { for j 0 1 { task depend(in: x[i]) depend(out: y[j]) { } } }")[0]
        self.assertEqual(unrolled(loop.body, "i", 1),
                         body_of("for j 0 1 { task depend(in: x[1]) depend(out: y[j]) { } }"))

    def test_costs_are_left_out_at_every_depth(self):
        self.assertFalse(has(without_costs(LARGE), Work))


class Shrinking(unittest.TestCase):
    def shrunk(self, needed, tries=2000):
        shrinker = Shrinker(lambda body: Trial(body, 5) if needed(body) else None, tries)
        return shrinker.shrink(LARGE, Trial(LARGE, 5))[0], shrinker

    def test_what_is_needed_is_left(self):
        self.assertEqual(self.shrunk(lambda body: has(body, Wait))[0], (Wait(),))
        self.assertEqual(self.shrunk(lambda body: has(body, Task, lambda task: task.final))[0],
                         body_of("task final(1) { }"))
        small = self.shrunk(lambda body: has(body, Loop) and has(body, Wait))[0]
        self.assertEqual(segment_count(small), 1)

    def test_no_program_is_tried_twice(self):
        tried = []
        Shrinker(lambda body: tried.append(body), 2000).shrink(LARGE, Trial(LARGE, 5))
        self.assertEqual(len(tried), len(set(tried)))

    def test_tries_are_counted(self):
        _, shrinker = self.shrunk(lambda body: has(body, Wait), tries=7)
        self.assertLessEqual(len(shrinker.seen), 7)

    def test_nothing_is_tried_once_it_is_over(self):
        tried = []
        Shrinker(tried.append, 2000, lambda: len(tried) == 2).shrink(LARGE, Trial(LARGE, 5))
        self.assertEqual(len(tried), 2)

    def test_work_stays_where_the_failure_would_fade(self):
        body = body_of("task { work 8 } taskwait")
        rates = {8: 10, 4: 9, 2: 8, 1: 3}

        def fails(candidate):
            if not has(candidate, Task) or not has(candidate, Wait):
                return None
            costs = [node.cost for node in nodes(candidate) if isinstance(node, Work)]
            return Trial(candidate, rates[costs[0]] if costs else 1)

        small, trial = Shrinker(fails, 100).shrink(body, Trial(body, 10))
        self.assertEqual(small, body_of("task { work 2 } taskwait"))
        self.assertEqual(trial.failed, 8)

    def test_fading_is_of_work_alone(self):
        much, little = Trial(None, 10), Trial(None, 2)
        self.assertTrue(fades(body_of("work 2 taskwait"), much, body_of("taskwait"), little))
        self.assertFalse(fades(body_of("work 2 taskwait"), much, body_of("work 2"), little))


if __name__ == "__main__":
    unittest.main()
