"""What a terminal is shown, and what stands elsewhere: nothing."""
import io
import os
import types
import unittest

from spanprof.command import Progress, bytes_read, each


class Stream(io.StringIO):
    def __init__(self, is_terminal):
        super().__init__()
        self.is_terminal = is_terminal

    def isatty(self):
        return self.is_terminal


class Lines(unittest.TestCase):
    def shown(self, is_terminal, seconds, use):
        """With a clock that says 0, and then so many seconds."""
        stream, moments = Stream(is_terminal), iter([0])
        use(Progress("converting", stream, lambda: next(moments, seconds)))
        return stream.getvalue()

    def test_the_share_and_what_is_done(self):
        def use(progress):
            progress.at(0.256)
            progress("spanprof slack")
            progress.at(1)
            progress.at(None)
            progress.end()
        self.assertEqual(self.shown(True, 2, use).split("\r\033[K"), [
            "", "converting: 25 % done", "converting: 25 % done: spanprof slack",
            "converting: 100 % done: spanprof slack", "converting: spanprof slack", ""])

    def test_without_a_share(self):
        self.assertEqual(self.shown(True, 2, lambda progress: progress("x" * 300)), "\r\033[Kconverting: " + "x" * 98)

    def test_nothing_elsewhere_and_nothing_at_first(self):
        def use(progress):
            progress.at(0.5)
            progress.end()
        self.assertEqual((self.shown(False, 9, use), self.shown(True, 1.9, use)), ("", ""))

    def test_a_terminal_that_has_gone(self):
        class Gone(Stream):
            def write(self, words):
                raise OSError(5, "Input/output error")
        Progress("a", Gone(True), iter([0, 5]).__next__).at(1)

    def test_each_of_some_things(self):
        reported = self.shown(True, 5, lambda progress: self.assertEqual(list(each("abcd", progress)), list("abcd")))
        self.assertEqual([line[12:14] for line in reported.split("\r\033[K")[1:]], ["0 ", "25", "50", "75", ""])


class Processes(unittest.TestCase):
    def test_bytes_that_were_read(self):
        self.assertGreaterEqual(bytes_read(types.SimpleNamespace(pid=os.getpid())), 0)
        self.assertEqual(bytes_read(types.SimpleNamespace(pid=0)), 0)


if __name__ == "__main__":
    unittest.main()
