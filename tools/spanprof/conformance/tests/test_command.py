"""How the command ends."""
import contextlib
import io
import types
import unittest
from unittest import mock

from spanprof.command import Fault
from spanprof.conformance import command


def ended(fault):
    """The status, and what is reported, where a command ends with this fault."""
    reported = io.StringIO()
    options = types.SimpleNamespace(call=mock.Mock(side_effect=fault))
    with mock.patch.object(command, "parse", return_value=options), contextlib.redirect_stderr(reported), \
            mock.patch.object(command, "leave") as left:
        return command.main([]), reported.getvalue(), left.called


class Ends(unittest.TestCase):
    def test_faults_are_reported(self):
        self.assertEqual(ended(Fault("no such")), (2, "spanprof-conformance: no such\n", False))

    def test_a_file_that_is_not_there_is_named(self):
        self.assertEqual(ended(FileNotFoundError(2, "No such file or directory", "mutants.json")),
                         (2, "spanprof-conformance: mutants.json: No such file or directory\n", True))

    def test_nothing_is_reported_of_a_closed_pipe(self):
        self.assertEqual(ended(BrokenPipeError()), (2, "", True))

    def test_an_interruption(self):
        self.assertEqual(ended(KeyboardInterrupt()), (130, "", False))


if __name__ == "__main__":
    unittest.main()
