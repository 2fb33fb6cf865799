"""What the visit of a page tells, with a page that a test makes up: no browser is needed."""
import os
import tempfile
import unittest
from unittest import mock

import visit
from driving import focus_goes_through, keys_zoom_and_move
from devtools import Refused


class FakePage:
    """Answers what a test wants in place of a script's value."""

    def __init__(self, *values):
        self.values, self.keys = list(values), []

    def evaluate(self, _):
        return self.values.pop(0) if self.values else None

    def key(self, name, text=None):
        self.keys.append(name)

    def settled(self):
        pass


class Trials(unittest.TestCase):
    def test_a_timeline_that_does_not_zoom(self):
        still = [0, 100, 100]
        page = FakePage(None, still, still, still, still)
        self.assertEqual(list(keys_zoom_and_move(page)), ["+ does not zoom"])
        self.assertEqual(page.keys, ["+", "ArrowRight", "0"])

    def test_a_timeline_that_does(self):
        page = FakePage(None, [0, 100, 100], [20, 80, 100], [20, 80, 100], [35, 95, 100], [0, 100, 100])
        self.assertEqual(list(keys_zoom_and_move(page)), [])

    def test_a_control_that_tab_does_not_reach(self):
        page = FakePage(None, 2, "BUTTON", "A", "lanes")
        self.assertEqual(list(focus_goes_through(page)), ["Tab comes to ['A', 'BUTTON', 'lanes'] alone"])


class Faults(unittest.TestCase):
    def test_the_text_of_a_page(self):
        with tempfile.TemporaryDirectory() as folder:
            path = os.path.join(folder, "a.html")
            with open(path, "w", encoding="utf-8") as file:
                file.write('<script id="data">{"name":"a.9.tasks","unit":"us"}</script>')
            self.assertEqual(visit.text_of(path), os.path.join(folder, "a.9.tasks"))

    def test_a_page_that_cannot_be_opened_is_wrong(self):
        with mock.patch("visit.try_page", side_effect=Refused("no answer")):
            self.assertEqual(visit.faults_of(None, "spanprof", "folder", "x"), ["no answer"])
        self.assertRegex(visit.faults_of(None, "spanprof", "/no/folder", "x")[0], "No such file")
