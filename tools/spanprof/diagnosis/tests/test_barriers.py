import unittest
from types import SimpleNamespace

from spanprof.diagnosis.facts import Region
from spanprof.diagnosis.losses import Loss, of_barriers
from spanprof.diagnosis.names import Names
from spanprof.diagnosis.places import OWN, Phase, evened, needless_barriers
from spanprof.diagnosis.sentences import words_of_nowait
from spanprof.diagnosis.tests.worked import MS, facts, program

HERE = OWN + " at image.c:2"
PART = "  task {  # one of the region's threads\n    work %d\n%s  }\n"
SOURCE = ["#pragma omp parallel", "for (;;) {", "#pragma omp for \\", "   nowait", "for (;;) work();",
          "#pragma omp for schedule(static)", "for (;;) work();", "}", "#pragma omp for"]


def text(*phases, task=""):
    """A region whose threads have so much in each phase, in the order in which they began it; a number alone is what
    one thread runs behind the barrier."""
    out = "omptasks 1\nwork 7\n"
    for phase in phases:
        out += "work %d\n" % phase if isinstance(phase, int) else \
            "taskgroup {  # image.c:2\n%s}\n" % "".join(PART % (cost, task) for cost in phase)
    return out


def barriers(phases, threads, times=1, **more):
    one = program(text(*phases, **more))
    ran = [0] * len(one.code)
    for segment, thread in zip(one.code.own, threads):
        ran[segment] = thread
    return needless_barriers(one, [Region("image.c:2", len(set(threads)), MS, times=times)], lambda: ran)


class Barriers(unittest.TestCase):
    def test_threads_that_have_as_much_in_all_need_no_barrier(self):
        self.assertEqual(barriers([(90, 10), (10, 90)], [0, 1, 0, 1]), {HERE: (HERE, 1.0)})
        self.assertEqual(barriers([(90, 10), (90, 10)], [0, 1, 1, 0]), {HERE: (HERE, 1.0)})

    def test_as_a_converter_adds_them_up(self):
        one, regions = program(text((90, 10), (10, 90))), [Region("image.c:2", 2, MS)]
        kind = one.code.of[one.code.own[0]]
        for times, less, needless in ((1, 160, True), (2, 160, False), (1, 100, False)):
            one.code.barriers = [[kind, times, less, [(kind, 160), (None, 0)], [(None, 0), (kind, 80)]]]
            self.assertEqual(needless_barriers(one, regions, None),
                             {HERE: (HERE, 1.0), "": (HERE, 1.0)} if needless else {})

    def test_where_the_same_thread_has_more_the_schedule_is_the_cause(self):
        self.assertEqual(barriers([(90, 10), (90, 10)], [0, 1, 0, 1]), {})
        self.assertEqual(barriers([(90, 10), (60, 40), (40, 60)], [0, 1, 0, 1, 0, 1]), {})

    def test_threads_without_cost_count(self):
        for costs, less in (((0, 0), (0, 0)), 0), (((5, 0), (5, 0)), 0), (((5, 0), (0, 5)), 10):
            self.assertEqual(evened([Phase("a", dict(enumerate(one))) for one in costs]), less)

    def test_what_one_thread_runs_is_waited_for(self):
        self.assertEqual(barriers([(90, 10), (0, 99), (10, 90)], [0, 1, 0, 1, 0, 1]), {})
        self.assertEqual(barriers([(90, 10), 5, (10, 90)], [0, 1, 0, 1], times=2), {})

    def test_tasks_and_regions_that_no_table_has_are_left_out(self):
        self.assertEqual(barriers([(90, 10), (10, 90)], [0, 1, 0, 1], task="    task {\n      work 5\n    }\n"), {})
        self.assertEqual(barriers([(90, 10), (10, 90)], [0, 1, 0, 1], times=2), {})

    def test_what_is_lost_at_ends_of_such_loops_is_lost_to_their_barriers(self):
        run = facts(barriers={"a": ("b", 0.75)})
        self.assertEqual(of_barriers(run, [Loss("loop_schedule", "a", 80), Loss("serial", "a", 9)]),
                         [Loss("loop_schedule", "a", 20), Loss("barrier", "b", 60), Loss("serial", "a", 9),
                          Loss("barrier", "", 0)])

    def test_the_loops_of_a_region_by_its_source(self):
        sources, run = SimpleNamespace(lines_of=lambda name: SOURCE), facts()
        self.assertEqual(words_of_nowait(Names(run, sources), OWN + " at image.c:1"), "nowait at image.c:6")
        self.assertEqual(words_of_nowait(Names(run, None), OWN + " at image.c:1"), "nowait at image.c:1")


if __name__ == "__main__":
    unittest.main()
