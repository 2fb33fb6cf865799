"""No words of the tools say `proved` without saying of what.

It goes over every string of the commands that print summaries and pages, over the page's script, and over the man pages
and documents of the tools, sentence by sentence.
"""
import ast
import glob
import os
import re
import unittest

TOOLS = os.path.dirname(os.path.dirname(os.path.abspath(__file__)))
PARTS = ("", "record", "report", "path", "whatif")
OF_WHAT = re.compile(r"proved of (the recorded text|the burdened text|the text|this text|that text|it\b|them\b|%s)")
OTHERS = ("proved", "a program that is proved correct", "nothing about which is proved", "proves and builds",
          "computed here by the proved code, compiled for the page")
ABOUT_THE_TEXT = re.compile(r"\btexts?\b|nothing (is|about them is) proved|about which nothing is proved|"
                            r"with its proofs|in place of a proof")


def docstrings(tree):
    for node in ast.walk(tree):
        if isinstance(node, (ast.Module, ast.ClassDef, ast.FunctionDef)) and ast.get_docstring(node):
            yield node.body[0].value


def strings(source):
    """The texts that a program may print."""
    tree = ast.parse(source)
    comments = set(map(id, docstrings(tree)))
    return [node.value for node in ast.walk(tree)
            if isinstance(node, ast.Constant) and isinstance(node.value, str) and id(node) not in comments]


def claims_too_much(words):
    """Whether these words say that something is proved, and not of what."""
    return bool(re.search(r"\bproved\b", words)) and words not in OTHERS and not OF_WHAT.search(words) and \
        not any(other in words for other in OTHERS[1:])


def sentences(page):
    """Of a man page or document, without its marks."""
    plain = re.sub(r"(?m)^\.(BR?|IR?|RI|B)\s+|^\.\w+.*$|\\f.|\\", " ", page)
    plain = re.sub(r"(?ms)^```.*?^```\n|[*`|]", " ", plain)
    return [" ".join(sentence.split()) for sentence in re.split(r"(?<=[.:;])\s+|\n\s*\n", plain)]


def read(path):
    with open(path, encoding="utf-8") as file:
        return file.read()


class Words(unittest.TestCase):
    def test_of_the_commands(self):
        paths = [path for name in PARTS for path in glob.glob(os.path.join(TOOLS, "spanprof", name, "*.py"))]
        self.assertGreater(len(paths), 40)
        for path in paths:
            for words in strings(read(path)):
                self.assertFalse(claims_too_much(words), "%s: %r" % (path, words))

    def test_of_the_script(self):
        for path in glob.glob(os.path.join(TOOLS, "spanprof", "report", "template", "*.js")):
            self.assertNotIn("proved", read(path), path)

    def test_of_the_documents(self):
        pages = glob.glob(os.path.join(TOOLS, "man", "spanprof-[rpw]*.1"))
        for path in pages + [os.path.join(TOOLS, "README.md"), os.path.join(TOOLS, "spanprof", "report", "README.md"),
                             os.path.join(TOOLS, "..", "docs", "TUNING.md")]:
            for sentence in sentences(read(path)):
                if re.search(r"\bproved\b", sentence):
                    self.assertRegex(sentence, ABOUT_THE_TEXT, path)


class Itself(unittest.TestCase):
    def test_what_is_refused(self):
        self.assertTrue(claims_too_much("no number of threads gives more (proved)"))
        self.assertTrue(claims_too_much("proved: work and span of the text"))
        self.assertFalse(claims_too_much("it ends no sooner (proved of the recorded text)"))
        self.assertFalse(claims_too_much("no word of it"))

    def test_strings(self):
        self.assertEqual(strings('"""a proved doc"""\nA = "one" "two"\ndef f():\n    """proved"""\n    return "x"\n'),
                         ["onetwo", "x"])

    def test_sentences(self):
        self.assertEqual(sentences("It is\n.B proved\nof the text. Then\n```\nproved\n```\nmore."),
                         ["It is proved of the text.", "Then more."])


if __name__ == "__main__":
    unittest.main()
