import unittest

from spanprof.report.markup import Markup, bar, breakable, details, join, note, place_cell, section, table, tag


class Elements(unittest.TestCase):
    def test_words_are_escaped_and_markup_is_not(self):
        self.assertEqual(tag("p", "a < b", tag("i", "&")), "<p>a &lt; b<i>&amp;</i></p>")

    def test_attributes(self):
        self.assertEqual(tag("a", "x", class_="c", data_from="s", href=None, title='"'),
                         '<a class="c" data-from="s" title="&quot;">x</a>')

    def test_empty_elements(self):
        self.assertEqual(tag("line", x1=2), '<line x1="2"/>')
        self.assertEqual(tag("path", tag("title", "t"), d="M"), '<path d="M"><title>t</title></path>')

    def test_join(self):
        self.assertEqual(join(["<", Markup("<b>")], ", "), "&lt;, <b>")

    def test_names_break_at_their_signs(self):
        self.assertEqual(breakable("a_b.c:3"), "a_<wbr/>b.c:3")

    def test_parts(self):
        self.assertEqual(section("path", "Path", note("n")),
                         '<section id="path"><details><summary><h2>Path</h2></summary><p class="note">n</p></details>'
                         '</section>')
        self.assertEqual(details("more", "x"), "<details><summary>more</summary>x</details>")


class Tables(unittest.TestCase):
    def test_numbers_stand_to_the_right(self):
        made = table(["place", "cost"], [["a", "1"]], numeric=[1])
        self.assertIn('<th scope="col">place</th><th class="n" scope="col">cost</th>', made)
        self.assertIn('<td>a</td><td class="n">1</td>', made)
        self.assertNotIn("<button", made)

    def test_heads_that_sort(self):
        made = table(["place"], [], is_sortable=True)
        self.assertIn('<table class="sortable">', made)
        self.assertIn('<button type="button">place</button>', made)

    def test_a_place_with_source_and_colour(self):
        made = place_cell("task at a.c:3", "f(<x>)", 2)
        self.assertIn('class="key c2"', made)
        self.assertIn("<code>f(&lt;x&gt;)</code>", made)

    def test_a_bar_is_at_most_full(self):
        self.assertIn("width:100.0%", bar(120))
