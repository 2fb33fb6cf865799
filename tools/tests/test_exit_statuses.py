"""Each command ends with the exit statuses that its --help names, as far as no compiler is needed."""
import os
import re
import sys
import tempfile
import unittest
from types import SimpleNamespace

from spanprof.front.command import main
from spanprof.front.routes import main_of

TEXT = "omptasks 1\nwork 1\n"
CASES = {  # by tool, words and the status with which they end it; {text} and {log} are there, {none} is not
    "record": (("--nothing", 2), ("/bin/true", 125), ("{none}", 127), ("{text}", 126)),
    "convert": (("--nothing", 2), ("{none}", 1), ("{text}", 1), ("--out {none}/x {log}", 1)),
    "report": (("--nothing", 2), ("{none}", 1), ("{log}", 1), ("{text} -o {text}", 1), ("{text} -o x --trace x", 2)),
    "predict": (("--nothing", 2), ("{none}", 1), ("{log}", 1)),
    "whatif": (("--nothing", 2), ("{text}", 2), ("{none} --places", 1), ("{log} --places", 1),
               ("{text} --places -o x", 2)),
    "import": (("--nothing", 2), ("{none}", 1), ("{text}", 1), ("{log}", 1)),
    "path": (("--nothing", 2), ("{none}", 1), ("{log}", 1)),
    "conformance": (("--nothing", 2), ("emit {none}", 2), ("emit {log}", 2), ("run --cc {none}", 2)),
}
# Those that need a compiler or two recordings.
OTHERS = {"conformance": {1, 130}, "record": {3}, "report": {3}}


def reported_in(words):
    """The statuses beside 0 in the sentence on them."""
    sentence = re.search(r"xit status ([^.]*)\.", " ".join(words.split()))[1]
    return set(map(int, re.findall(r"\b\d+\b", sentence))) - {0}


def end_with_status(tool, words):
    """Nothing of what this process does at its end is done twice."""
    try:
        main("spanprof-" + tool, words)
    except SystemExit as end:
        sys.stdout.flush()
        os._exit(end.code or 0)
    finally:
        os._exit(255)


class Statuses(unittest.TestCase):
    def setUp(self):
        kept = tempfile.TemporaryDirectory()
        self.addCleanup(kept.cleanup)
        self.names = {name: os.path.join(kept.name, name) for name in ("text", "log", "none")}
        with open(self.names["text"], "w", encoding="utf-8") as file:
            file.write(TEXT)
        os.mkdir(self.names["log"])
        open(os.path.join(self.names["log"], "head"), "w", encoding="utf-8").close()
        os.symlink("/bin/true", os.path.join(kept.name, "make"))    # nothing is built
        self.path = kept.name + os.pathsep + os.environ["PATH"]

    def run_tool(self, tool, words):
        """In a child of this process, which has imported all of it."""
        words = [word.format(**self.names) for word in words.split()]
        with tempfile.TemporaryFile("w+") as stdout, tempfile.TemporaryFile("w+") as stderr:
            child = os.fork()
            if not child:
                os.environ.update({"SPANPROF_LARGE": "/bin/true", "PATH": self.path})
                os.dup2(stdout.fileno(), 1)
                os.dup2(stderr.fileno(), 2)
                end_with_status(tool, words)
            status = os.waitstatus_to_exitcode(os.waitpid(child, 0)[1])
            stdout.seek(0), stderr.seek(0)
            return SimpleNamespace(returncode=status, stdout=stdout.read(), stderr=stderr.read())

    def test_each(self):
        for tool, cases in CASES.items():
            main_of(tool)   # imports it
            usage = self.run_tool(tool, "--help")
            self.assertEqual((usage.returncode, usage.stderr), (0, ""), tool)
            for words, status in cases:
                done = self.run_tool(tool, words)
                self.assertEqual(done.returncode, status, (tool, words, done.stderr))
                self.assertRegex(done.stderr.splitlines()[-1], "^spanprof-" + tool)
                self.assertLessEqual(len(done.stderr.splitlines()), 2, (tool, words, done.stderr))
                self.assertEqual(done.stdout, "")
            ends = {status for _, status in cases} | OTHERS.get(tool, set())
            self.assertEqual(reported_in(usage.stdout), ends, tool)


if __name__ == "__main__":
    unittest.main()
