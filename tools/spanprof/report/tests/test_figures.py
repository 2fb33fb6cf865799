import unittest

from spanprof.head import Head
from spanprof.report.figures import MEASURED, PROVED, Figures, Units, badge, percent
from spanprof.tests.proofs import with_a_proved_program

setUpModule = with_a_proved_program


class Numbers(unittest.TestCase):
    def test_percent_of_nothing(self):
        self.assertEqual((percent(1, 4), percent(3, 0)), (25.0, 0.0))

    def test_a_number_tells_its_source_and_kind(self):
        self.assertEqual(Figures().number(1200, "span work", PROVED),
                         '<data value="1200" title="proved of the text (span work)" data-from="span work" '
                         'class="proved">1,200</data>')

    def test_a_time_has_a_human_unit_and_its_number_in_the_title(self):
        show = Figures(Units(Head(unit="us")))
        self.assertEqual(show.time(1234567, "span work", PROVED),
                         '<data value="1234567" title="1,234,567 µs: proved of the text (span work)" '
                         'data-from="span work" data-scale="1000000" class="proved">1.23 s</data>')
        self.assertIn('data-rounded="up" data-scale="1000" class="proved">1.24 ms<',
                      show.time(1231, "curve 2 bound", PROVED, "up"))

    def test_a_share_below_nothing(self):
        self.assertIn(">−3.4 %<", Figures().share(-34, 1000, "tasks / tasks", PROVED))

    def test_quotients(self):
        self.assertIn('value="0.333333"', Figures().number(1 / 3, "span work / elapsed", MEASURED, 2))
        self.assertIn(">1.00<", Figures().times_at_most(0, 0, "span work / span span", PROVED))

    def test_bounds_are_rounded_away_from_what_they_bound(self):
        show, source = Figures(), "span work / curve 2 least"
        self.assertIn('data-rounded="up" class="proved">1.33<', show.times_at_most(41, 31, source, PROVED))
        self.assertIn('data-rounded="down" class="proved">1.32<', show.times_at_least(41, 31, source, PROVED))
        self.assertIn(">1.50<", show.times_at_most(3, 2, source, PROVED))
        self.assertIn(">1.00<", show.times_at_least(0, 0, source, PROVED))

    def test_words_with_several_numbers(self):
        self.assertEqual(Figures().with_sources("title", "2 of 3", ["tasks", "span segments"]),
                         '<title data-from="tasks; span segments">2 of 3</title>')


class Words(unittest.TestCase):
    def test_a_badge_explains_itself(self):
        self.assertRegex(badge(PROVED), '<span class="badge proved" title="follows from .*">proved of the text</span>')
