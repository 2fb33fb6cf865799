#!/usr/bin/env python3
"""Which file an import means, and which circles are found."""
import ast
import unittest

from imports import circle, defined, imports_of, missing
from style import TOP

HERE, BESIDE = TOP / "checks" / "one" / "here.py", TOP / "checks" / "one" / "beside.py"
ABOVE, PACKAGED = TOP / "checks" / "above.py", TOP / "tools" / "spanprof" / "text.py"
KNOWN = {HERE, BESIDE, ABOVE, PACKAGED}


class Imported(unittest.TestCase):
    def test_beside_above_and_in_the_package(self):
        source = "import os, beside\nfrom above import a\nfrom spanprof import text\nfrom spanprof.text import b\n"
        self.assertEqual(imports_of(HERE, ast.parse(source), KNOWN), {BESIDE, ABOVE, PACKAGED})

    def test_inside_a_function(self):
        self.assertEqual(imports_of(HERE, ast.parse("def f():\n    from one import beside\n"), KNOWN), {BESIDE})

    def test_what_is_not_here(self):
        self.assertEqual(imports_of(HERE, ast.parse("import here, json\nfrom . import x\n"), KNOWN), set())


class Names(unittest.TestCase):
    def test_what_a_module_defines(self):
        source = "import os as system\nfrom a import b\nclass C:\n  def f(self):\n    pass\nlimit, (x, y) = 1, p\n"
        self.assertEqual(set(defined(ast.parse(source))), {"system", "b", "C", "f", "limit", "x", "y"})

    def test_what_is_imported_and_not_there(self):
        tree = ast.parse("from above import a, b\nfrom json import loads\nimport beside")
        self.assertEqual(list(missing(HERE, tree, {ABOVE: {"a"}, BESIDE: set()})), ["above.b"])


class Circles(unittest.TestCase):
    def test_none(self):
        self.assertEqual(circle({"a": {"b", "c"}, "b": {"c"}, "c": set()}), [])

    def test_of_two_and_of_three(self):
        self.assertEqual(circle({"a": {"b"}, "b": {"c"}, "c": {"b"}}), ["b", "c"])
        self.assertEqual(circle({"a": {"b"}, "b": {"c"}, "c": {"a"}}), ["a", "b", "c"])


if __name__ == "__main__":
    unittest.main()
