"""Runtimes built from changed sources."""
import json
import pathlib
import tempfile
import unittest

from spanprof.conformance.run import mutant_campaigns

DESCRIBED = {"late": {"words": "wakes late", "rule": "taskwait", "breaks": "no: slower"},
             "lost": {"words": "loses a task", "rule": "once", "breaks": "yes"},
             "absent": {"words": "was not built", "rule": "once", "breaks": "yes"}}


class Folder(unittest.TestCase):
    def found(self):
        with tempfile.TemporaryDirectory() as folder:
            folder = pathlib.Path(folder)
            (folder / "mutants.json").write_text(json.dumps(DESCRIBED))
            for name in ("none", "late", "lost"):
                (folder / f"{name}.so").touch()
            return mutant_campaigns.built_in(folder)

    def test_by_rule_and_name_after_the_runtime_as_it_is(self):
        self.assertEqual([one.name for one in self.found()], ["none", "lost", "late"])
        self.assertEqual([one.is_wrong for one in self.found()], [False, True, False])

    def test_environment(self):
        mutant = self.found()[1]
        self.assertEqual(mutant.environment({"A": "b"}), {"A": "b", "LD_PRELOAD": str(mutant.library)})
        self.assertEqual(mutant.environment({"LD_PRELOAD": "log.so"})["LD_PRELOAD"], f"{mutant.library} log.so")


if __name__ == "__main__":
    unittest.main()
