"""The mutants' heads, how they are built, and how what was caught is counted."""
import pathlib
import tempfile
import unittest
import unittest.mock

import build
import operators
import own_tests
import sources
import table
from patches import FOLDER, NoMutant, mutants_of, read_mutant

HEAD = "Description: a task never ends\nRule: progress\nBreaks: yes\n\n--- a/task.c\n+++ b/task.c\n"


class Patches(unittest.TestCase):
    def read(self, text):
        with tempfile.TemporaryDirectory() as folder:
            path = pathlib.Path(folder) / "never-ends.patch"
            path.write_text(text)
            return read_mutant(path)

    def test_head(self):
        mutant = self.read(HEAD)
        self.assertEqual((mutant.name, mutant.words, mutant.rule), ("never-ends", "a task never ends", "progress"))
        self.assertTrue(mutant.is_wrong)
        self.assertFalse(self.read(HEAD.replace("yes", "no: slower")).is_wrong)

    def test_head_without_a_field(self):
        with self.assertRaisesRegex(NoMutant, "no Rule"):
            self.read(HEAD.replace("Rule: progress\n", ""))

    def test_all_that_there_are(self):
        for family, least in (("gomp", 40), ("kmp", 15)):
            mutants = mutants_of(family)
            self.assertGreaterEqual(sum(mutant.is_wrong for mutant in mutants), least)
            for mutant in mutants:
                self.assertRegex(mutant.breaks, "^(yes|no: .+)$", mutant.name)
                self.assertLess(len(mutant.words), 121, mutant.name)
                self.assertIn("\n+++ b/", mutant.path.read_text(), mutant.name)

    def test_names(self):
        self.assertEqual([mutant.name for mutant in mutants_of("gomp", ["if-ignored"])], ["if-ignored"])
        with self.assertRaisesRegex(NoMutant, "no mutant nothing of gomp"):
            mutants_of("gomp", ["nothing"])

    def test_each_name_is_that_of_its_file(self):
        self.assertEqual({path.parent.name for path in FOLDER.glob("*/*.patch")}, {*sources.FAMILIES, "races"})


class Building(unittest.TestCase):
    def test_options(self):
        options = build.options_of("gomp out one two --jobs 3 --archive some.tar".split())
        self.assertEqual((options.family, options.names, options.jobs), ("gomp", ["one", "two"], 3))
        self.assertEqual(options.archive, pathlib.Path.cwd() / "some.tar")   # it is unpacked in another folder

    def test_no_archive(self):
        with unittest.mock.patch.object(sources.Gomp, "archives", "/nowhere/*.xz"):
            with self.assertRaisesRegex(sources.NoSource, "gcc-12-source"):
                sources.archive_of("gomp")
            self.assertEqual(sources.archive_of("gomp", "some.tar"), "some.tar")

    def test_a_patch_is_applied_and_taken_back(self):
        with tempfile.TemporaryDirectory() as folder:
            tree, called = pathlib.Path(folder), []
            (tree / "lib.so").write_text("library")
            family = unittest.mock.Mock(library="lib.so")
            family.make.side_effect = lambda *_: called.append("make")
            with unittest.mock.patch.dict(sources.FAMILIES, {"some": family}), \
                    unittest.mock.patch.object(sources, "run", lambda words, *_: called.append(" ".join(words[:3]))):
                sources.build_patched("some", tree, "a.patch", tree / "a.so")
            self.assertEqual(called, ["patch -p1 -i", "make", "patch -p1 -R"])
            self.assertEqual((tree / "a.so").read_text(), "library")

    def test_a_command_that_fails_tells_its_last_lines(self):
        with tempfile.TemporaryDirectory() as folder:
            with self.assertRaisesRegex(sources.NoSource, "sh -c .* fails: bad luck"):
                sources.run(["sh", "-c", "echo bad luck; exit 1"], folder, pathlib.Path(folder) / "log")


class Operators(unittest.TestCase):
    SOURCE = """void
GOMP_taskwait (void)
{
  struct gomp_task *task = 0;
  /* if (task == 0); */
  if (task == NULL)
    return;
  task->waits = true;
  gomp_mutex_lock (&lock);
  wait_for (task,
            task->other);
  again:
}
"""

    def changed(self, number):
        """What each operator makes of a line."""
        return {change.operator: change.new for change in operators.changes_of(self.SOURCE) if change.number == number}

    def test_each_operator(self):
        self.assertEqual(self.changed(5), {"negate": ("  if (!(task == NULL))",), "compare": ("  if (task != NULL)",)})
        self.assertEqual(self.changed(7), {"drop": ("  ;",), "constant": ("  task->waits = false;",),
                                           "move": ("  gomp_mutex_lock (&lock);", "  task->waits = true;")})

    def test_a_statement_of_two_lines(self):
        self.assertEqual(self.changed(9), {"drop": ("  ;", "")})

    def test_a_condition_of_two_lines(self):
        lines = ["  if (a", "      && b)"]
        self.assertEqual(operators.negated(lines, lines, 0), ["  if (!(a", "      && b))"])

    def test_comments_labels_and_code_for_devices_stay(self):
        self.assertEqual({change.number for change in operators.changes_of(self.SOURCE)}, {3, 5, 7, 8, 9})
        other = self.SOURCE.replace("GOMP_taskwait", "GOMP_target_ext")
        self.assertEqual(list(operators.changes_of(other)), [])

    def test_functions(self):
        code = ["static bool __kmp_push(int x,", "  int y);", "f (void (*g) (int))", "  g (1);"]
        self.assertEqual(list(operators.functions_of(code)), ["__kmp_push", "__kmp_push", "f", "f"])

    def test_a_patch_can_be_read(self):
        with tempfile.TemporaryDirectory() as folder:
            tree, patches = pathlib.Path(folder), pathlib.Path(folder) / "patches"
            for name in operators.FILES["gomp"]:
                (tree / name).parent.mkdir(parents=True, exist_ok=True)
                (tree / name).write_text(self.SOURCE)
            operators.main(["gomp", folder, str(patches), "--count", "2"])
            self.assertEqual(len(mutants_of("gomp", folder=patches)), 2)
            self.assertIn("+++ b/libgomp/", next(patches.iterdir()).read_text())


class Tables(unittest.TestCase):
    MUTANTS = {"lost": {"rule": "once", "breaks": "yes"}, "slow": {"rule": "once", "breaks": "no: slower"},
               "early": {"rule": "taskwait", "breaks": "yes"}, "detached": {"rule": "detach", "breaks": "yes"}}

    @staticmethod
    def seen(program=""):
        return {"program": program}

    def row(self, title, seen, own=()):
        return next(row for row in table.rows(self.MUTANTS, seen, dict(own)) if row[0] == title)[1:]

    def test_rows(self):
        seen = {"lost": self.seen("a"), "slow": self.seen(), "early": self.seen(), "detached": self.seen("c")}
        self.assertEqual(self.row("once", seen), [1, 1, "", 1, 0])
        self.assertEqual(self.row("taskwait", seen, {"early": ["x"]}.items()), [1, 0, "`early`", 1, 0, 0])
        self.assertEqual(self.row("**all**", seen), [3, 2, "`early`", 1, 0])

    def test_what_breaks_nothing_and_was_refused(self):
        self.assertEqual(self.row("once", {"slow": self.seen("a")}), [0, 0, "", 1, 1])


class OwnTests(unittest.TestCase):
    def test_each_language_has_a_compiler(self):
        self.assertEqual(set(own_tests.COMPILERS), set(own_tests.testsuite.LANGUAGES.values()))
        program = own_tests.testsuite.Program("c:some.c", "/some.c", ("-O1",), "c")
        with unittest.mock.patch.object(own_tests.shutil, "which", lambda _: None):
            self.assertIsNone(own_tests.compiled(program, pathlib.Path("/none")))

    def test_status_and_time(self):
        with tempfile.TemporaryDirectory() as folder:
            program = pathlib.Path(folder) / "prog"
            program.write_text('#!/bin/sh\n[ "$LD_PRELOAD" = good.so ]\n')
            program.chmod(0o755)
            test = own_tests.Test(program)
            self.assertTrue(own_tests.passes(test, "good.so"))
            fast = own_tests.Test(program, own_tests.LEAST)
            self.assertEqual(own_tests.usable([test, test], "good.so", 2), [fast, fast])
            self.assertEqual(own_tests.failed(3 * [test], "bad.so", 1), 3 * ["prog"])
            self.assertEqual(own_tests.failed(3 * [test], "bad.so", 1, enough=2), 2 * ["prog"])
            self.assertEqual(own_tests.usable([test], "bad.so", 1), [])
            program.write_text("#!/bin/sh\nexec sleep 9\n")
            self.assertFalse(own_tests.passes(own_tests.Test(program, .1), ""))
            program.write_text("#!/bin/sh\n[ -f $0.begun ] || { touch $0.begun; exec sleep 99; }\n")
            self.assertTrue(own_tests.passes(own_tests.Test(program, 2), ""))  # slow once

    def test_libraries(self):
        with tempfile.TemporaryDirectory() as folder:
            folder = pathlib.Path(folder)
            for name in ("a", "none", "b"):
                (folder / f"{name}.so").touch()
            self.assertEqual([name for name, _ in own_tests.libraries(folder, [])], ["none", "a", "b"])
            self.assertEqual([name for name, _ in own_tests.libraries(folder, ["b"])], ["none", "b"])


if __name__ == "__main__":
    unittest.main()
