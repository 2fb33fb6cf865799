import io
import unittest

from spanprof.answers import Place
from spanprof.path.command import HEADS, MOST_ROWS, lines, write_csv


def place(span, work, segments, name):
    return Place(name, cost=work, critical_cost=span, critical_segments=segments)


class Tables(unittest.TestCase):
    def test_what_is_shown(self):
        places = [place(30, 50, 2, "a task"), place(0, 2, 0, "b"), place(0, 1, 0, "c"), place(0, 0, 3, "d")]
        self.assertEqual(list(lines(places, 200, 40)), [
            HEADS,
            "   75.0%    25.0%         2  a task",
            "    0.0%     1.0%         0  b",
        ])

    def test_nothing_costs_anything(self):
        self.assertEqual(list(lines([place(0, 0, 1, "the beginning")], 0, 0)),
                         [HEADS, "    0.0%     0.0%         1  the beginning"])

    def test_many_places(self):
        reported = list(lines((place(1, 2, 1, str(i)) for i in range(MOST_ROWS + 300)), 800, 400))
        self.assertEqual(len(reported), MOST_ROWS + 2)
        self.assertEqual(reported[-1], "   75.0%    75.0%       300  300 more places")

    def test_csv_has_all_and_quotes_names(self):
        file = io.StringIO()
        write_csv([place(1, 2, 3, 'a, "b"'), place(0, 0, 0, "c")], file)
        self.assertEqual(file.getvalue(), 'span,work,segments,place\n1,2,3,"a, ""b"""\n0,0,0,c\n')


if __name__ == "__main__":
    unittest.main()
