import unittest

from spanprof.answers import Place
from spanprof.report.tests import worked


class OfTheWorkedProgram(unittest.TestCase):
    def setUp(self):
        self.view = worked.view("mesh")

    def test_sums_by_place(self):
        of = self.view.answers.code.of
        found = {place.name: place for place in self.view.places}
        self.assertEqual(found["task at mesh.c:8"], Place("task at mesh.c:8", 1, 12, 1, 12, 0, 0, [1]))
        both = found["task at mesh.c:10"]
        self.assertEqual((both.segments, both.cost, both.critical_segments, both.critical_cost), (2, 14, 1, 6))
        self.assertEqual([one.segments for one in found.values()],
                         [sum(map(of.count, one.kinds)) for one in found.values()])

    def test_the_most_of_the_span_comes_first(self):
        shares = [place.critical_cost for place in self.view.places]
        self.assertEqual(shares, sorted(shares, reverse=True))
        self.assertEqual([place.number for place in self.view.places], list(range(len(shares))))

    def test_tasks_by_the_construct_that_creates_them(self):
        found = {place.name: place for place in self.view.task_places}
        both = found["mesh.c:10"]
        self.assertEqual((both.tasks, both.cost, both.critical_cost), (2, 15, 7))
        self.assertEqual(found["the root"].tasks, 1)
