"""Each option that a tool's --help lists has its place in the tool's page, and zsh completes those of --help."""
import contextlib
import io
import os
import re
import unittest

from spanprof.front.routes import TOOLS, main_of

HERE = os.path.dirname(os.path.dirname(os.path.abspath(__file__)))
OPTION = re.compile(r"--[a-z][a-z-]*")
OTHERS = {"conformance", "graph"}   # with commands of its own; with one option, and no page


def options_of(tool):
    out = io.StringIO()
    with contextlib.redirect_stdout(out), contextlib.suppress(SystemExit):
        main_of(tool)(["--help"])
    return re.findall(r"(?m)^  (?:-[^-].*, )?(--[a-z][a-z-]*)", out.getvalue())


def read(*path):
    with open(os.path.join(HERE, *path), encoding="utf-8") as file:
        return file.read()


class Options(unittest.TestCase):
    def test_each_has_its_places(self):
        by_help = re.findall(r"(?m)^_spanprof_(\w+)\(\) \{ _spanprof_by_help ", read("completion/_spanprof"))
        self.assertEqual(sorted(by_help), sorted(set(TOOLS) - OTHERS))
        for tool in by_help:
            page, options = "man/spanprof-%s.1" % tool, set(options_of(tool))
            self.assertIn("--version", options)
            missing = options - set(OPTION.findall(read(page).replace("\\-", "-")))
            self.assertEqual(sorted(missing), [], "tools/%s lacks these options of spanprof-%s" % (page, tool))


if __name__ == "__main__":
    unittest.main()
