import argparse
import os
import signal
import sys
import tempfile
import unittest
from unittest import mock

from spanprof.command import NO_PROGRAM, NOT_EXECUTABLE, Fault
from spanprof.record.command import parse
from spanprof.record.run import PassedOn, end_as, environment, signal_name, watched, without_recorder
from spanprof.record.runtime import find


def options(**given):
    known = dict(unit=None, clock=None, threads=None, call_paths=False)
    return argparse.Namespace(**dict(known, **given))


class Environment(unittest.TestCase):
    def test_what_is_not_asked_for_stays(self):
        new = environment({"OMP_NUM_THREADS": "3", "SPANPROF_UNIT": "ms"}, options(), "/r.so", "", "/out")
        self.assertEqual(new, {"OMP_NUM_THREADS": "3", "SPANPROF_UNIT": "ms", "OMP_TOOL": "enabled",
                               "OMP_TOOL_LIBRARIES": "/r.so", "SPANPROF_OUT": "/out", "SPANPROF_QUIET": "1"})

    def test_what_is_asked_for(self):
        new = environment({}, options(unit="us", clock="cpu", threads=8), "/r.so", "", "o")
        self.assertEqual([new[name] for name in ("SPANPROF_UNIT", "SPANPROF_CLOCK", "OMP_NUM_THREADS")],
                         ["us", "cpu", "8"])
        self.assertEqual(environment({}, options(call_paths=True), "/r.so", "", "o")["SPANPROF_CALL_PATHS"], "1")

    def test_other_tools_and_libraries_come_after(self):
        new = environment({"LD_PRELOAD": "/a.so", "OMP_TOOL_LIBRARIES": "/b.so", "OMP_TOOL": "disabled"}, options(),
                          "/r.so", "/llvm.so", "o")
        self.assertEqual((new["LD_PRELOAD"], new["OMP_TOOL_LIBRARIES"], new["OMP_TOOL"]),
                         ("/llvm.so:/a.so", "/r.so:/b.so", "enabled"))

    def test_unrecorded_runs(self):
        self.assertEqual(without_recorder({}, "", 3, "/r.so"), {"OMP_TOOL": "disabled", "OMP_NUM_THREADS": "3"})
        self.assertEqual(without_recorder({"OMP_TOOL": "disabled"}, "/llvm.so", 3, "/r.so"),
                         {"OMP_TOOL": "enabled", "OMP_TOOL_LIBRARIES": "/r.so", "SPANPROF_RECORD": "0",
                          "LD_PRELOAD": "/llvm.so", "OMP_NUM_THREADS": "3"})
        self.assertNotIn("SPANPROF_RECORD", environment({"SPANPROF_RECORD": "0"}, options(), "/r.so", "", "o"))


class Ends(unittest.TestCase):
    def python(self, code):
        return watched(sys.executable, [sys.executable, "-c", code], dict(os.environ)).status

    def test_the_status_of_the_program(self):
        self.assertEqual(self.python("raise SystemExit(3)"), 3)
        self.assertEqual(self.python("import os; os.abort()"), -signal.SIGABRT)

    def test_what_the_system_counted(self):
        code = "import time; time.sleep(0.05)\nfor _ in range(20000): pass"
        ended = watched(sys.executable, [sys.executable, "-c", code], dict(os.environ))
        self.assertGreater(ended.elapsed, 50000000)
        self.assertGreater(ended.usage.ru_utime + ended.usage.ru_stime, 0)
        self.assertGreater(ended.usage.ru_minflt, 100)
        self.assertGreater(ended.process, 0)

    def test_a_file_that_is_no_program(self):
        with tempfile.NamedTemporaryFile(suffix=".txt") as file:
            os.chmod(file.name, 0o644)
            with self.assertRaises(Fault) as fault:
                watched(file.name, [file.name], {})
        self.assertEqual(fault.exception.status, NOT_EXECUTABLE)

    def test_a_script_without_its_interpreter(self):
        with tempfile.TemporaryDirectory() as folder:
            path = os.path.join(folder, "script")
            with open(path, "w", encoding="utf-8") as file:
                file.write("#!/no/such/interpreter\n")
            os.chmod(path, 0o755)
            with self.assertRaisesRegex(Fault, "script: the interpreter or loader that it names is not there"):
                watched(path, [path], {})

    def test_this_process_ends_alike(self):
        for status in (0, 3, -signal.SIGABRT, -signal.SIGKILL):
            child = os.fork()
            if not child:
                try:
                    end_as(status)
                except SystemExit as end:
                    os._exit(end.code)
            self.assertEqual(os.waitstatus_to_exitcode(os.waitpid(child, 0)[1]), status)

    def test_names_of_signals(self):
        self.assertEqual(signal_name(-11), "SIGSEGV")
        self.assertEqual(signal_name(-99), "signal 99")


class Signals(unittest.TestCase):
    def test_a_signal_goes_to_the_program(self):
        before = signal.getsignal(signal.SIGTERM)
        with mock.patch("os.kill") as kill, PassedOn() as passed_on:
            passed_on.to(7)
            signal.raise_signal(signal.SIGTERM)
        kill.assert_called_once_with(7, signal.SIGTERM)
        self.assertEqual(signal.getsignal(signal.SIGTERM), before)

    def test_one_that_comes_before_the_program_does(self):
        with mock.patch("os.kill") as kill, PassedOn() as passed_on:
            signal.raise_signal(signal.SIGTERM)
            passed_on.to(7)
        kill.assert_called_once_with(7, signal.SIGTERM)

    def test_one_that_comes_after_the_program_ended(self):
        with mock.patch("os.kill") as kill, PassedOn() as passed_on:
            passed_on.to(7)
            passed_on.to(None)
            signal.raise_signal(signal.SIGTERM)
        kill.assert_not_called()

    def test_one_that_comes_as_the_program_ends(self):
        with mock.patch("os.kill", side_effect=ProcessLookupError), PassedOn() as passed_on:
            passed_on.to(7)
            signal.raise_signal(signal.SIGTERM)

    def test_one_that_is_ignored_stays_ignored(self):
        before = signal.signal(signal.SIGHUP, signal.SIG_IGN)
        try:
            with PassedOn():
                self.assertEqual(signal.getsignal(signal.SIGHUP), signal.SIG_IGN)
        finally:
            signal.signal(signal.SIGHUP, before)


class Finding(unittest.TestCase):
    def status(self, word):
        with self.assertRaises(Fault) as fault:
            find(word)
        return fault.exception.status

    def test_programs(self):
        self.assertEqual(find(sys.executable), sys.executable)
        with mock.patch("shutil.which", return_value="/bin/mine"), mock.patch("os.path.exists", return_value=True), \
                mock.patch("os.access", return_value=True):
            self.assertEqual(find("mine"), "/bin/mine")

    def test_what_is_none(self):
        self.assertEqual(self.status("/no/such/program"), NO_PROGRAM)
        self.assertEqual(self.status("no-such-program-at-all"), NO_PROGRAM)
        self.assertEqual(self.status("/"), NOT_EXECUTABLE)
        self.assertEqual(self.status(os.path.abspath(__file__)), NOT_EXECUTABLE)


class Words(unittest.TestCase):
    def test_the_program_and_its_words(self):
        for words in (["--unit", "us", "--", "./mine", "--unit", "7"], ["--unit", "us", "./mine", "--unit", "7"]):
            chosen = parse(words)
            self.assertEqual((chosen.unit, chosen.command), ("us", ["./mine", "--unit", "7"]))

    def test_names(self):
        self.assertEqual(parse(["--", "./build/mine"]).out, "mine")

    def test_wrong_words(self):
        wrong = ("--unit s", "--unit 0", "--threads 0", "--runs -1", "--fold exact", "--whole",
                 "--clock sun", "--out a/", "--thre 2")
        for words in [[], ["--"]] + [options.split() + ["--", "x"] for options in wrong]:
            with mock.patch("sys.stderr"), self.assertRaises(SystemExit) as end:
                parse(words)
            self.assertEqual(end.exception.code, 2, words)


if __name__ == "__main__":
    unittest.main()
