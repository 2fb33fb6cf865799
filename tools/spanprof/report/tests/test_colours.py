import re
import unittest
from itertools import combinations

from spanprof.report.markup import BARS, COLOURS, INK, INKS, colour_rules

# How people see who have no cones for red, for green, or for blue (Machado and others, 2009), in linear RGB.
SEEN_BY = {
    "all": ((1, 0, 0), (0, 1, 0), (0, 0, 1)),
    "no red": ((0.152286, 1.052583, -0.204868), (0.114503, 0.786281, 0.099216), (-0.003882, -0.048116, 1.051998)),
    "no green": ((0.367322, 0.860646, -0.227968), (0.280085, 0.672501, 0.047413), (-0.011820, 0.042940, 0.968881)),
    "no blue": ((1.255528, -0.076749, -0.178779), (-0.078411, 0.930809, 0.147602), (0.004733, 0.691367, 0.303900))}
WHITE = (0.95047, 1.0, 1.08883)
TO_XYZ = ((0.4124, 0.3576, 0.1805), (0.2126, 0.7152, 0.0722), (0.0193, 0.1192, 0.9505))


def linear(colour):
    parts = (int(colour[i:i + 2], 16) / 255 for i in (1, 3, 5))
    return [part / 12.92 if part <= 0.04045 else ((part + 0.055) / 1.055) ** 2.4 for part in parts]


def contrast(a, b):
    """That of WCAG 2."""
    low, high = sorted(sum(weight * part for weight, part in zip((0.2126, 0.7152, 0.0722), linear(colour)))
                       for colour in (a, b))
    return (high + 0.05) / (low + 0.05)


def times(matrix, vector):
    return [sum(a * b for a, b in zip(row, vector)) for row in matrix]


def lab(rgb):
    x, y, z = (value / white for value, white in zip(times(TO_XYZ, rgb), WHITE))
    f = [value ** (1 / 3) if value > 0.008856 else 7.787 * value + 16 / 116 for value in (x, y, z)]
    return 116 * f[1] - 16, 500 * (f[0] - f[1]), 200 * (f[1] - f[2])


def distance(a, b, who):
    """How different two colours look, by CIE 1976: from about 2 on one sees it."""
    seen = [lab([min(1, max(0, part)) for part in times(SEEN_BY[who], linear(colour))]) for colour in (a, b)]
    return sum((p - q) ** 2 for p, q in zip(*seen)) ** 0.5


class Bars(unittest.TestCase):
    def test_any_two_can_be_reported_by_everybody(self):
        for number in (0, 1):
            for who, least in (("all", 20), ("no red", 10), ("no green", 10), ("no blue", 8)):
                for a, b in combinations((pair[number] for pair in BARS), 2):
                    self.assertGreater(distance(a, b, who), least, (who, number, a, b))

    def test_words_on_bars_can_be_read(self):
        for i, pair in enumerate(BARS):
            for number, colour in enumerate(pair):
                self.assertGreater(contrast(colour, INK[INKS[number][i]]), 4.5, colour)

    def test_bars_can_be_reported_from_the_panel(self):
        for number in (0, 1):
            for pair in BARS:
                self.assertGreater(contrast(pair[number], COLOURS["panel"][number]), 1.5, pair)


class Words(unittest.TestCase):
    def test_words_can_be_read_on_paper_and_panel(self):
        for name in ("ink", "soft", "accent", "red", "measured", "recorded", "proved", "declared"):
            for number in (0, 1):
                for ground in ("paper", "panel"):
                    self.assertGreater(contrast(COLOURS[name][number], COLOURS[ground][number]), 4.5, (name, ground))


class Rules(unittest.TestCase):
    def test_any_browser_takes_them(self):
        self.assertNotIn("light-dark(", colour_rules())

    def test_light_dark_and_print(self):
        self.assertEqual(len(re.findall("--c9: ", colour_rules())), 3)
