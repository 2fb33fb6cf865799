import unittest

from spanprof.report.figures import DECLARED, MEASURED, RECORDED
from spanprof.report.markup import MOST_COLOURS
from spanprof.report.part_curve import reached
from spanprof.report.tests import worked


class Runs(unittest.TestCase):
    def test_by_the_clock(self):
        view = worked.view("split")
        self.assertAlmostEqual(reached(view), 37 / 30)
        self.assertEqual((view.run.count, view.run.unit), (2, 1000))

    def test_by_the_head_alone(self):
        view = worked.view("odd")
        self.assertEqual((view.run, view.answers.head.threads, view.unit), (None, 2, "× 250 ns"))
        self.assertGreater(reached(view), 0)

    def test_nothing_recorded(self):
        view = worked.view("plain")
        self.assertEqual((reached(view), view.run), (None, None))


class Kinds(unittest.TestCase):
    def test_costs_are_measured_where_the_head_says_so(self):
        self.assertEqual((worked.view("mesh").cost_kind, worked.view("mesh").unit), (MEASURED, "µs"))
        self.assertEqual((worked.view("plain").cost_kind, worked.view("plain").unit), (DECLARED, ""))

    def test_the_shape_is_recorded_where_the_head_says_so(self):
        self.assertEqual((worked.view("mesh").shape_kind, worked.view("plain").shape_kind), (RECORDED, DECLARED))

    def test_places_of_segments_and_tasks(self):
        view = worked.view("mesh")
        self.assertEqual([view.places[view.place_of[s]].name for s in (1, 3, 8)],
                         ["task at mesh.c:8", "task at mesh.c:10", "task at mesh.c:10"])
        third = view.answers.code.of[view.answers.code.firsts()[3]]
        self.assertEqual(view.task_places[view.task_place_of[third]].name, "mesh.c:3")

    def test_the_last_places_share_a_colour(self):
        view = worked.view("mesh")
        view.task_places[-1].number = 40
        self.assertEqual(view.colour_of(view.task_places[-1]), MOST_COLOURS - 1)
