import unittest

from spanprof.program_text import TextFile, is_cut, opened
from spanprof.tests.in_folder import InFolder

DOCUMENT = "omptasks 1\nwork 2\n---\nstart 0 0\n"


class Files(InFolder):
    def read(self, text):
        with opened(text) as file:
            return file.read().decode()

    def test_the_text_alone(self):
        text = TextFile(self.write("a.replay", DOCUMENT))
        self.assertEqual((str(text), self.read(text)), ("omptasks 1\nwork 2\n",) * 2)
        self.assertEqual(list(filter(None, text.lines())), ["omptasks 1", "work 2"])
        self.assertTrue(is_cut(text.path))

    def test_words(self):
        self.assertEqual(self.read("work 1\n"), "work 1\n")

    def test_whether_it_has_loops(self):
        for text, has_loops in (("# a\nomptasks 2\n", True), ("omptasks 1\n", False), ("", False)):
            self.assertEqual(TextFile(self.write("a.tasks", text)).has_loops(), has_loops)


if __name__ == "__main__":
    unittest.main()
