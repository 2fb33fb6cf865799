"""In tools/: python3 -m unittest discover -s tests -t ."""
import ast
import contextlib
import io
import os
import unittest
from unittest import mock

import install
import wheel
from spanprof.command import Fault
from spanprof.tests.in_folder import InFolder


class Plan(unittest.TestCase):
    def test_what_goes_where(self):
        places = [path for _, path in install.plan()]
        for path in ("bin/spanprof", "libexec/spanprof/spanprof", "lib/spanprof/librecorder.so",
                     "lib/spanprof/convert_log", "lib/spanprof/calibrate", "share/spanprof/spanprof/path/command.py",
                     "share/spanprof/spanprof/whatif/command.py", "share/man/man1/spanprof-path.1",
                     "share/man/man1/spanprof.1", "share/bash-completion/completions/spanprof-report",
                     "share/zsh/site-functions/_spanprof", "share/spanprof/spanprof/record/command.py",
                     "share/spanprof/spanprof/report/template/page.html", "share/spanprof/spanprof/client.py",
                     "share/spanprof/spanprof/conformance/judge/verdicts.py",
                     "share/spanprof/conformance/harness/log.c", "share/spanprof/spanprof/folders.py",
                     "share/spanprof/VERSION"):
            self.assertIn(path, places)
        self.assertEqual(len(places), len(set(places)))

    def test_the_module_of_the_wheel_imports_nothing_that_it_lacks(self):
        folder = wheel.TOP / "tools/spanprof"
        for name in wheel.MODULE:
            for node in ast.walk(ast.parse((folder / name).read_text())):
                if isinstance(node, ast.ImportFrom) and node.module.startswith("spanprof"):
                    modules = [node.module.partition(".")[2]] if "." in node.module else \
                        [one.name for one in node.names if (folder / (one.name + ".py")).exists()]
                    self.assertLessEqual({module + ".py" for module in modules}, {*wheel.MODULE})

    def test_names_with_hyphens_are_links(self):
        self.assertEqual(install.links(large="no such program")[:2],
                         [("spanprof", "bin/spanprof-record"), ("spanprof", "bin/spanprof-convert")])
        self.assertEqual(install.links(large=__file__)[-1],
                         ("../libexec/spanprof/spanprof_large", "bin/spanprof_large"))

    def test_the_program_for_large_texts_where_it_is_built(self):
        self.assertNotIn("libexec/spanprof/spanprof_large",
                         [path for _, path in install.plan(large="no such program")])
        places = dict((path, source) for source, path in install.plan(large=__file__))
        self.assertEqual(places["libexec/spanprof/spanprof_large"], __file__)
        self.assertIn("share/man/man1/spanprof_large.1", places)
        self.assertIn("share/man/man1/spanprof-account.1", places)

    def test_programs_can_be_run(self):
        self.assertEqual([oct(install.mode(path)) for path in (
            "bin/spanprof", "lib/spanprof/convert_log", "lib/spanprof/librecorder.so",
            "libexec/spanprof/spanprof.sha256")], ["0o755", "0o755", "0o644", "0o644"])

    def test_tests_and_the_installer_stay_behind(self):
        self.assertFalse([path for path in install.shared_files() if "tests/" in path or path.endswith("install.py")])


class Libraries(InFolder):
    def test_the_proved_one_or_that_beside_the_program(self):
        self.assertEqual(install.library_of("reference/out/spanprof", self.folder), "reference/out")
        shared = self.write("libspanprof.so")
        self.assertEqual(install.library_of("reference/out/spanprof", self.folder), self.folder)
        self.assertNotIn("lib/libspanprof.so.sha256", [path for _, path in install.of_library(self.folder)])
        self.write("libspanprof.so.sha256")
        self.assertEqual(dict((path, source) for source, path in install.of_library(self.folder))
                         ["lib/libspanprof.so.sha256"], shared + ".sha256")


class Programs(InFolder):
    def test_named_proved_or_without_proofs(self):
        proved = [self.write(name) for name in ("spanprof", "spanprof_large")]
        self.assertEqual(install.programs({}, proved), tuple(proved))
        self.assertEqual(install.programs({"SPANPROF": "mine"}, proved), ("mine", proved[1]))
        missing = ("no such program", "nor this one")
        self.assertEqual(install.programs({"SPANPROF_LARGE": "mine"}, missing), (missing[0], "mine"))
        others = [self.write("reference/" + name) for name in ("spanprof", "spanprof_large")]
        with mock.patch.object(install, "other_places_of", lambda name: (
                "nowhere/" + name, os.path.join(self.folder, "reference", name))):
            self.assertEqual(install.programs({}, missing), tuple(others))
        with mock.patch.object(install, "other_places_of", lambda name: ("nowhere/" + name,)):
            self.assertEqual(install.programs({}, missing), missing)


class Library(InFolder):
    def test_where_it_is_built(self):
        self.assertNotIn("include/spanprof.h", [path for _, path in install.plan(library="no such folder")])
        self.write("libspanprof.so")
        places = [path for _, path in install.plan(library=self.folder)]
        for path in ("lib/libspanprof.so", "lib/libspanprof.so.0", "lib/libspanprof.a", "include/spanprof.h",
                     "share/man/man3/spanprof.3", "lib/pkgconfig/spanprof.pc",
                     "lib/cmake/spanprof/spanprof-config.cmake"):
            self.assertIn(path, places)

    def test_checksums_go_with_proved_programs(self):
        programs = [self.write(name) for name in ("spanprof", "spanprof_large")]
        self.assertFalse([path for _, path in install.plan(*programs, self.folder) if path.endswith(".sha256")])
        checksums = {program + ".sha256" for program in programs}
        for path in checksums:
            self.write(path)
        self.assertEqual({source: path for source, path in install.plan(*programs, self.folder)
                          if source in checksums}, dict(zip((one + ".sha256" for one in programs), (
                              "libexec/spanprof/spanprof.sha256", "libexec/spanprof/spanprof_large.sha256"))))


class Prefix(InFolder):
    def setUp(self):
        super().setUp()
        self.root = os.path.join(self.folder, "usr")
        self.source = self.write("source", "program\n")
        self.pairs = [(self.source, "bin/spanprof"), (self.source, "share/spanprof/record/run.py")]

    def install(self):
        with contextlib.redirect_stdout(io.StringIO()):
            install.install(self.root, self.pairs, [("spanprof", "bin/spanprof-record")])

    def files(self):
        return sorted(os.path.relpath(os.path.join(where, name), self.root)
                      for where, _, names in os.walk(self.root) for name in names)

    def test_all_of_it_is_taken_away(self):
        self.install()
        self.assertEqual(self.files(), ["bin/spanprof", "bin/spanprof-record", "share/spanprof/installed",
                                        "share/spanprof/record/run.py"])
        self.assertTrue(os.access(os.path.join(self.root, "bin", "spanprof-record"), os.X_OK))
        self.assertEqual(install.uninstall(self.root), 4)
        self.assertFalse(os.path.exists(self.root))

    def test_what_was_there_stays(self):
        self.write("usr/bin/other")
        os.makedirs(os.path.join(self.root, "share"))
        self.install()
        install.uninstall(self.root)
        self.assertEqual(self.files(), ["bin/other"])
        self.assertEqual(sorted(os.listdir(self.root)), ["bin", "share"])

    def test_a_second_time(self):
        self.install()
        self.pairs.pop()
        self.install()
        self.assertEqual(self.files(), ["bin/spanprof", "bin/spanprof-record", "share/spanprof/installed"])
        install.uninstall(self.root)
        self.assertFalse(os.path.exists(self.root))

    def test_nothing_to_take_away(self):
        self.assertEqual(install.uninstall(self.root), 0)

    def test_a_file_that_is_missing(self):
        missing = os.path.join(self.folder, "none")
        for path, words in (("libexec/spanprof/spanprof", "none: no such program; ./demo builds one"),
                            ("lib/x.so", "none: no such file")):
            self.pairs[1] = (missing, path)
            with self.assertRaisesRegex(Fault, words):
                self.install()
            self.assertFalse(os.path.exists(self.root))


if __name__ == "__main__":
    unittest.main()
