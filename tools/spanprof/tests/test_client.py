import os
import signal
import stat
import tempfile
import unittest
from unittest import mock

from spanprof import client
from spanprof.command import Fault


class Asking(unittest.TestCase):
    def answers(self, script):
        """A program that does as the script says, in the place of spanprof."""
        folder = tempfile.TemporaryDirectory()
        self.addCleanup(folder.cleanup)
        path = os.path.join(folder.name, "answers")
        with open(path, "w", encoding="utf-8") as file:
            file.write("#!/bin/sh\n" + script)
        os.chmod(path, stat.S_IRWXU)
        return mock.patch.dict(os.environ, SPANPROF_LARGE=path)

    def test_what_it_prints(self):
        with self.answers("cat\n"):
            self.assertEqual(client.ask(["show"], "omptasks 1\n"), "omptasks 1\n")

    def test_one_that_ends_before_it_has_read_all(self):
        before = signal.getsignal(signal.SIGPIPE)
        with self.answers("echo 'error: input too long'\nexit 1\n"):
            with self.assertRaises(client.Refused) as ended:
                client.ask(["span"], "work 1\n" * 100000)
        self.assertEqual(str(ended.exception),
                         "spanprof span: error: input too long: a line has at most 4,000,000,000 bytes")
        self.assertEqual(signal.getsignal(signal.SIGPIPE), before)

    def test_a_program_that_is_not_spanprof(self):
        with tempfile.NamedTemporaryFile("w", suffix=".tasks") as text:
            for script, why in (("exit 7\n", "%s: spanprof span: it ended with status 7" % text.name),
                                ("cat > /dev/null\n", ".*/answers does not answer as spanprof does")):
                with self.answers(script), self.assertRaisesRegex(Fault, "^%s$" % why):
                    client.read(text.name)

    def test_columns_of_a_table(self):
        with self.answers("cat > /dev/null\nprintf 'segment,start,thread\\n0,5,1\\n1,7,\\n'\n"):
            found = client.columns(["greedy"], "omptasks 1\n", ["thread", "start"])
        self.assertEqual([list(column) for column in found], [[1, -1], [5, 7]])

    def test_columns_that_are_not_there(self):
        for script, why in (("echo a,b; echo 1,2", "spanprof slack: rows of another form"),
                            ("echo start; echo 1,2", "spanprof slack: rows of another form"),
                            ("echo start,cost; echo 1.5,2", "spanprof slack: rows of another form"),
                            ("echo start,cost; echo 99999999999999999999,1", "spanprof slack: rows of another form"),
                            ("echo 'error: line 1: BadWord'; exit 1", "spanprof slack: error: line 1: BadWord")):
            with self.answers("cat > /dev/null\n%s\n" % script), self.assertRaisesRegex(Fault, "^%s$" % why):
                client.columns(["slack"], "omptasks 1\n", ["start"])

    def test_too_little_memory(self):
        for script, is_of_memory in (("echo 'error: out of memory'; exit 3", True), ("kill -9 $$", True),
                                     ("echo 'error: line 1: BadWord'; exit 1", False)):
            with self.answers(script + "\n"), self.assertRaises(client.Refused) as ended:
                client.ask(["slack"], "omptasks 1\n")
            self.assertEqual(ended.exception.is_of_memory, is_of_memory)


if __name__ == "__main__":
    unittest.main()
