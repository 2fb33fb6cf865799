"""Which part of the package imports which: none in a circle. And only commands end the process."""
import ast
import os
import subprocess
import sys
import unittest

PACKAGE = os.path.dirname(os.path.dirname(os.path.abspath(__file__)))
ENDS = {"command.py", "convert_command.py", "run.py"}  # run.py ends as the recorded program did
MOST_FILES = 36     # that a reader of one summary has to know
SHARED = ""     # the modules of the package itself
# Each may import those before it.
LAYERS = (SHARED, "conformance", "predict", "whatif", "diagnosis", "report", "path", "record", "graph", "imports",
          "front")


def modules():
    """Of each module, without tests, its part and its path."""
    for folder, _, names in os.walk(PACKAGE):
        part = os.path.relpath(folder, PACKAGE).split(os.sep)[0].replace(".", SHARED)
        if "tests" not in folder.split(os.sep) and not part.startswith("__"):
            yield from ((part, os.path.join(folder, name)) for name in names if name.endswith(".py"))


def imported(source):
    """The parts of the package that a module imports."""
    for node in ast.walk(ast.parse(source)):
        if isinstance(node, ast.ImportFrom) and (node.module or "").split(".")[0] == "spanprof":
            names = [node.module.split(".")[1]] if "." in node.module else [alias.name for alias in node.names]
            yield from (name if name in LAYERS else SHARED for name in names)


class Layers(unittest.TestCase):
    def test_each_imports_those_before_it(self):
        found = set()
        for part, path in modules():
            found.add(part)
            with open(path, encoding="utf-8") as file:
                for other in imported(file.read()):
                    self.assertLessEqual(LAYERS.index(other), LAYERS.index(part), "%s imports %s" % (path, other))
        self.assertEqual(found, set(LAYERS))

    def test_only_commands_end_the_process(self):
        for _, path in modules():
            with open(path, encoding="utf-8") as file:
                if os.path.basename(path) not in ENDS:
                    self.assertNotRegex(file.read(), r"SystemExit|sys\.exit", path)

    def test_a_summary_loads_few_files(self):
        """What `spanprof record` loads before it prints; what few runs need is loaded where it is used."""
        code = "import sys; from spanprof.front import command; command.main_of('record'); " \
            "print(*(name for name, module in sys.modules.items() " \
            "if name.startswith('spanprof.') and not hasattr(module, '__path__')), sep='\\n')"
        reported = subprocess.run([sys.executable, "-B", "-c", code], cwd=os.path.dirname(PACKAGE), capture_output=True,
                                  text=True, check=True)
        self.assertLessEqual(len(reported.stdout.split()), MOST_FILES, reported.stdout)

    def test_what_is_imported(self):
        self.assertEqual(list(imported("import os\nfrom spanprof import client\nfrom spanprof.record.run import run\n"
                                       "def f():\n    from spanprof.path import found\n")), [SHARED, "record", "path"])


if __name__ == "__main__":
    unittest.main()
