"""The table of a program's regions, and what is made of it."""
import os
import tempfile
import unittest

from spanprof.command import Fault
from spanprof.recording import LOG, most_threads, program_of, read_regions

TABLE = """\
number,text,begin_ns,end_ns,threads,tasks,loops,code_ns,inside,place
0,0,0,1000,1,0,0,290,0,
1,1,100,300,4,10,0,700,0,steps.c:9
2,0,300,350,2,0,3,40,0,loop, of.c:5
3,2,400,500,4,10,0,310,0,steps.c:9
4,3,600,900,4,12,0,900,0,steps.c:9
5,0,650,700,2,2,0,80,1,inner.c:3
"""


class Tables(unittest.TestCase):
    def setUp(self):
        folder = tempfile.TemporaryDirectory()
        self.addCleanup(folder.cleanup)
        self.folder = folder.name

    def kept(self, name="mine.regions", words=TABLE):
        path = os.path.join(self.folder, name)
        with open(path, "w", encoding="utf-8") as file:
            file.write(words)
        return path

    def test_a_program(self):
        program = read_regions(self.kept())
        self.assertEqual((program.elapsed, len(program.regions)), (1000, 5))
        self.assertEqual([place.name for place in program.places], ["steps.c:9", "loop, of.c:5", "inner.c:3"])
        self.assertEqual([place.outermost for place in program.places], [600, 50, 0])
        self.assertEqual([place.is_inside for place in program.places], [False, False, True])
        self.assertEqual(program.stretches, [(0, 100, None), (100, 300, 0), (300, 350, 1), (350, 400, None),
                                             (400, 500, 0), (500, 600, None), (600, 900, 0), (900, 1000, None)])
        self.assertEqual(program.outside, 350)

    def test_regions_that_overlap_count_once(self):
        program = read_regions(self.kept(words=TABLE.replace("2,0,300,350", "2,0,250,350")))
        self.assertEqual(program.outside, 350)
        place = read_regions(self.kept(words=TABLE.replace("3,2,400,500", "3,2,250,620"))).places[0]
        self.assertEqual(place.outermost, 800)

    def test_a_plain_text_has_none(self):
        self.assertIsNone(program_of(os.path.join(self.folder, "other.tasks")))

    def test_the_most_threads_of_a_recording(self):
        text = os.path.join(self.folder, "program.tasks")
        self.assertIsNone(most_threads(text))
        os.mkdir(os.path.join(self.folder, LOG))
        for path in (text, os.path.join(self.folder, LOG, "head")):
            with open(path, "w", encoding="utf-8"):
                pass
        self.assertIsNone(most_threads(text))
        self.kept("regions", TABLE + "\n")
        self.assertEqual(most_threads(text), 4)
        self.kept("regions", "\n".join(TABLE.split("\n")[:2]))
        self.assertIsNone(most_threads(text))
        self.kept("regions", "")
        with self.assertRaisesRegex(Fault, "regions is damaged"):
            most_threads(text)

    def test_a_sign_that_ends_a_line_elsewhere_and_an_empty_line(self):
        program = read_regions(self.kept(words=TABLE.replace("inner", "in\u2028ner") + "\n"))
        self.assertEqual(program.regions[-1].place, "in\u2028ner.c:3")

    def test_what_is_no_table(self):
        for words in ("", TABLE.replace("place\n", "where\n"), TABLE.replace("4,3,600", "4,x,600"),
                      TABLE.replace("0,0,0,1000", "0,0,0,0"), TABLE.replace(",310,0,steps.c:9", "")):
            with self.assertRaisesRegex(Fault, "mine.regions is not a table of regions"):
                read_regions(self.kept(words=words))


if __name__ == "__main__":
    unittest.main()
