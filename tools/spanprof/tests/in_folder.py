"""What tests share that need files: a folder of their own, and a command's answer."""
import contextlib
import io
import os
import tempfile
import unittest
from unittest import mock


class InFolder(unittest.TestCase):
    def setUp(self):
        kept = tempfile.TemporaryDirectory()
        self.addCleanup(kept.cleanup)
        self.folder = kept.name

    def write(self, name, text=""):
        path = os.path.join(self.folder, name)
        os.makedirs(os.path.dirname(path), exist_ok=True)
        with open(path, "w", encoding="utf-8") as file:
            file.write(text)
        return path

    def program(self, name, script):
        path = self.write(name, script)
        os.chmod(path, 0o755)
        return path


def answered(main, words, **variables):
    """A command's exit status, and what stands on standard output and standard error."""
    out, errors, ended = io.StringIO(), io.StringIO(), 0
    with mock.patch.dict(os.environ, variables), contextlib.redirect_stdout(out), contextlib.redirect_stderr(errors):
        try:
            main(words)
        except SystemExit as end:
            ended = end.code
    return ended, out.getvalue(), errors.getvalue()
