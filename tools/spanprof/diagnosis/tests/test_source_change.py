import unittest

from spanprof.diagnosis.changes import single
from spanprof.diagnosis.diagnose import Step
from spanprof.diagnosis.names import Names, diff, read_only
from spanprof.diagnosis.tests.test_sentences import SOURCES, TASKS, found

WAIT = "taskwait at image.c:12"


def step(option, word, place):
    return Step("dependence", place, 2, 1, 1, 1, 1.0, single(option, word))


class Diffs(unittest.TestCase):
    def setUp(self):
        self.names = Names(found(), SOURCES)

    def test_in_for_inout(self):
        self.assertEqual(read_only("#pragma omp task depend(inout: a, b[0]) depend(in: c)", "b[0]"),
                         "#pragma omp task depend(inout: a) depend(in: c) depend(in: b[0])")
        self.assertIsNone(read_only("#pragma omp task depend(in: b[0])", "b[0]"))
        self.assertEqual(diff(self.names, step("in-for-inout", "a0", TASKS)), (
            ["#pragma omp task depend(in: b[0]) depend(inout: tab[f(0, 1)]) depend(out: d[0])"],
            ["#pragma omp task depend(in: b[0]) depend(out: d[0]) depend(in: tab[f(0, 1)])"]))

    def test_what_is_the_neighbours_too(self):
        self.names.facts.places[TASKS].moving_at.add(0)
        was, now = diff(self.names, step("read-only", TASKS, TASKS))
        self.assertEqual((was, now), (
            ["#pragma omp task depend(in: b[0]) depend(inout: tab[f(0, 1)]) depend(out: d[0])"],
            ["#pragma omp task depend(in: b[0]) depend(out: d[0]) depend(in: tab[f(0, 1)])"]))

    def test_a_wait_and_all_items(self):
        self.assertEqual(diff(self.names, step("drop-wait", WAIT, WAIT)), (["#pragma omp taskwait"], []))
        self.assertEqual(diff(self.names, step("drop-depend", TASKS, TASKS))[1], ["#pragma omp task"])

    def test_nothing_of_other_changes_or_without_the_source(self):
        self.assertEqual(diff(self.names, step("split", TASKS + "=4", TASKS)), ([], []))
        self.assertEqual(diff(Names(found(), None), step("in-for-inout", "a0", TASKS)), ([], []))
        self.assertEqual(diff(self.names, Step("lock", "image.c:13", 2, 1, 1, 1)), ([], []))


if __name__ == "__main__":
    unittest.main()
