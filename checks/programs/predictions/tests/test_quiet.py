import contextlib
import io
import os
import pathlib
import unittest
from tempfile import NamedTemporaryFile, TemporaryDirectory
from unittest import mock

from quiet import NAMES, Used, Watch, going_first, read_stat, used, verdict


def stat(**taken):
    return {name: 100 + taken.get(name, 0) for name in NAMES}


class Quiet(unittest.TestCase):
    def test_shares(self):
        """Of ten seconds of all processors the own programs used three, others one, and the host took half of one."""
        found = used(stat(), stat(user=3, system=1, idle=5, iowait=0.5, steal=0.5), 3, 2.5)
        self.assertEqual(found, (0.05, 0.1, 2.5))
        self.assertFalse(found.is_quiet)
        self.assertTrue(used(stat(), stat(user=4, idle=6), 3.8, 1).is_quiet)

    def test_clocks_that_tell_less_than_the_own_programs_used(self):
        self.assertEqual(used(stat(), stat(user=3, idle=7), 3.4, 1).others, 0)

    def test_a_file(self):
        with NamedTemporaryFile("w", encoding="ascii") as file:
            file.write("cpu  200 0 100 400 0 0 0 50 0 0\ncpu0 1 1 1 1 1 1 1 1 1 1\n")
            file.flush()
            found = read_stat(file.name)
        self.assertEqual((found["steal"] / found["user"], found["idle"] / found["user"]), (0.25, 2))

    def test_a_watch(self):
        found = Watch().used()
        self.assertGreaterEqual(found.stolen, 0)
        self.assertGreaterEqual(found.others, 0)

    def test_going_first(self):
        with TemporaryDirectory() as folder, mock.patch("os.setpriority") as priority:
            path = pathlib.Path(folder, "autogroup")
            path.write_text("/autogroup-18 nice 3\n")
            with going_first(path):
                self.assertTrue(path.read_text().startswith("-20"))
            priority.assert_called_once_with(os.PRIO_PROCESS, 0, -20)
            self.assertTrue(path.read_text().startswith("3"))

    def test_where_it_is_not_allowed(self):
        out = io.StringIO()
        with mock.patch("os.setpriority", side_effect=PermissionError(13, "Permission denied")), \
                contextlib.redirect_stderr(out), going_first("/none"):
            self.assertIn("runs do not go before other programs: ", out.getvalue())

    def test_a_verdict(self):
        turns = [Used(0.0, 0.01, 1.5), Used(0.01, 0.20, 3.0)]
        self.assertEqual(verdict(turns), "the machine was NOT QUIET: 1 of 2 turns without more than 3 % of its time "
                         "for others; at worst 1.0 % stolen and 20.0 % of other programs, load up to 3.0")
        self.assertTrue(verdict(turns[:1]).startswith("the machine was quiet: 1 of 1 turns"))
        self.assertEqual(verdict([]), "the machine: no turn was watched")


if __name__ == "__main__":
    unittest.main()
