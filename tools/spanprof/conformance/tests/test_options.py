"""The words of the command line."""
import contextlib
import io
import unittest

from spanprof.conformance.commands import COMMANDS
from spanprof.conformance.judge.verdicts import USUAL
from spanprof.conformance.options import parse


def parsed(words):
    return parse(COMMANDS, words.split())


class Options(unittest.TestCase):
    def refused(self, words):
        with self.assertRaises(SystemExit) as end, contextlib.redirect_stderr(io.StringIO()) as said:
            parsed(words)
        self.assertEqual(end.exception.code, 2)
        return said.getvalue()

    def test_usual_values(self):
        run, mutants = parsed("run --cc gcc"), parsed("mutants --cc gcc")
        self.assertEqual(run.threads, (1, 2, 4, 16))
        self.assertEqual(mutants.threads, (2, 4))
        self.assertEqual((run.settings, mutants.settings), ([], []))  # those for the runtime
        self.assertEqual(run.expected, [USUAL])
        self.assertEqual(run.tasks, ["tied", "untied", "mixed"])
        self.assertEqual((run.programs, mutants.programs, run.seconds, run.report), (20, 20, 300, ""))

    def test_each_command_is_called(self):
        for name, call in COMMANDS.items():
            words = {"emit": "x", "judge": "x y", "shrink": "x --cc gcc",
                     "list": ""}.get(name, "--cc gcc")
            self.assertIs(parsed(f"{name} {words}").call, call)
            self.assertTrue(call.__doc__, name)

    def test_lists(self):
        options = parsed("run --cc gcc --threads 3,64 --settings pinned,free --tasks mixed")
        self.assertEqual(options.threads, (3, 64))
        self.assertEqual(options.settings, ["pinned", "free"])
        self.assertEqual(options.tasks, ["mixed"])

    def test_numbers(self):
        options = parsed("run --cc gcc --programs 0 --seed 0 --jobs 1")
        self.assertEqual((options.programs, options.seed, options.jobs), (0, 0, 1))

    def test_delays_in_the_runtime(self):
        self.assertEqual((parsed("run --cc gcc").perturb, parsed("run --cc gcc --perturb 8").perturb), (0, 8))
        for words in ("12", "12:", "12:1a2b+,3c4d-"):
            self.assertEqual(parsed(f"shrink x --cc gcc --perturb {words}").perturb, words)
        for words in ("x", "12,13", "12:1a2b"):
            with self.assertRaises(SystemExit), contextlib.redirect_stderr(io.StringIO()):
                parsed(f"shrink x --cc gcc --perturb {words}")

    def test_what_is_refused_before_all_runs(self):
        for words, why in (("--report /none/x.md", "there is no folder /none"),
                           ("--match none", "no directed or self-checking program's name fits none")):
            said = self.refused("run --cc gcc " + words)
            self.assertIn(why, said)
            self.assertEqual(said.splitlines()[0], "usage: spanprof-conformance run [options] --cc CC")

    def test_what_is_refused(self):
        self.assertIn("1 to 64", self.refused("run --cc gcc --threads 2,65"))
        self.assertIn("1 to 64", self.refused("run --cc gcc --threads 0"))
        self.assertIn("1 is the least", self.refused("run --cc gcc --runs 0"))
        self.assertIn("1 is the least", self.refused("run --cc gcc --seed -1"))
        self.assertIn("invalid", self.refused("run --cc gcc --timeout soon"))
        self.assertIn("slow is none of", self.refused("run --cc gcc --settings free,slow"))
        self.assertIn("required: --cc", self.refused("run"))
        self.assertIn("required: COMMAND", self.refused(""))
        self.assertIn("required: log", self.refused("judge x"))


if __name__ == "__main__":
    unittest.main()
