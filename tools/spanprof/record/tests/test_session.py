import argparse
import contextlib
import io
import os
import resource
import unittest
from unittest import mock

from spanprof.command import Fault
from spanprof.record import command, session
from spanprof.record.folder import Process
from spanprof.record.run import Ended
from spanprof.record.runtime import Chosen
from spanprof.record.session import Recorded, record_often
from spanprof.record.tests.log_heads import log_head
from spanprof.recording import open_recording
from spanprof.remarks import Messages
from spanprof.tests.in_folder import InFolder
from spanprof.tests.recordings import TEXT, recording, write

USED = resource.struct_rusage((1.5, 0.25, 0, 0, 0, 0, 410, 3, 0, 0, 0, 0, 0, 0, 12, 7))


class Earlier(InFolder):
    def test_what_is_compared_with_is_there_and_stays(self):
        out = os.path.join(self.folder, "mine")
        recording(self.folder)
        session.check_earlier(out + ".spanprof", out, False)
        for path, words in ((out + ".spanprof/", "--force would replace"), ("none", "--against none: no such recor")):
            with self.assertRaisesRegex(Fault, words):
                session.check_earlier(path, out, True)


class Reasons(unittest.TestCase):
    def why(self, status=0, loaded=True, things=(), has_runtime=True):
        recorded = mock.Mock(out="/tmp/mine", has_runtime=has_runtime)
        return session.why_nothing(status, Messages(loaded, list(things)), recorded)

    def test_each(self):
        nothing = {"message": "no tasks", "inside": False}
        self.assertEqual(self.why(status=-11, things=[nothing]),
                         "the program ended by SIGSEGV; no parallel region with tasks")
        self.assertEqual(self.why(things=[nothing]), "no parallel region with tasks")
        self.assertEqual(self.why(loaded=False), "the program met no construct of OpenMP")
        self.assertIn("was it compiled with -fopenmp?", self.why(loaded=False, has_runtime=False))
        self.assertIn("reported no reason", self.why())

    def test_the_recorder_comes_before_the_runtime(self):
        self.assertEqual(session.loaded_first(Chosen("/libgomp.so", True), "/r.so"), "/r.so:/libgomp.so")
        self.assertEqual(session.loaded_first(Chosen("/llvm.so"), "/r.so"), "/llvm.so:/r.so")
        self.assertEqual(session.loaded_first(Chosen(), "/r.so"), "")

    def test_what_llvm_lacks_is_noted(self):
        with mock.patch("spanprof.record.session.what_it_lacks", return_value=["GOMP_scope_start"]):
            self.assertIn("GOMP_scope_start", session.notes_on("/llvm.so", {"GOMP_scope_start"})[0])
            self.assertEqual(session.notes_on("", {"GOMP_scope_start"}), [])

    def test_target_tasks_of_gcc_are_refused(self):
        with mock.patch("spanprof.record.session.what_it_lacks", return_value=["GOMP_target_ext"]), \
                mock.patch("spanprof.record.runtime.llvm_runtime", return_value="/llvm.so"):
            with self.assertRaisesRegex(Fault, "GOMP_target_ext, which LLVM's runtime does not have.*"
                                               "--runtime /llvm.so"):
                session.notes_on("/llvm.so", {"GOMP_target_ext"})
            self.assertIn("GOMP_target_ext", session.notes_on("/llvm.so", {"GOMP_target_ext"}, True)[0])


class Runs(InFolder):
    """Sessions whose program is made up: each of its runs ends with the next status, and leaves a log at 0, of which
    the converter makes a text."""

    def session(self, statuses, runs=1, times=(30, 10, 20)):
        made = session.Session.__new__(session.Session)
        made.options = argparse.Namespace(runs=runs, force=False, json=None, full=False, command=["./m"])
        made.out, made.notes, made.rank = os.path.join(self.folder, "mine"), [], None
        made.converter, made.has_runtime = "/convert", True
        left, times = iter(statuses), iter(times)

        def run(out):
            status = next(left)
            if status == 0:
                write(os.path.join(out + ".spanprof", "log", "head"), "")
            return Ended(status, next(times), USED)
        made.run, made.variables = run, lambda out: {"OMP_NUM_THREADS": "3"}
        return made

    def convert(self, program, log, folder, variables):
        write(os.path.join(folder, "program.tasks"), TEXT)
        return [{"message": "text", "file": os.path.join(folder, "program.tasks")}]

    def record(self, made, convert=None):
        reported = io.StringIO()
        with contextlib.redirect_stderr(reported), made.begun(), \
                mock.patch("spanprof.record.session.convert_into", side_effect=convert or self.convert), \
                mock.patch("spanprof.client.measured",
                           side_effect=[{"work": work, "span": span} for work, span in ((9, 4), (7, 5), (8, 3))]):
            recorded = record_often(made) if made.options.runs > 1 else made.record_once()
        return recorded, reported.getvalue()

    def names(self):
        return sorted(os.listdir(self.folder))

    def test_once(self):
        recorded, reported = self.record(self.session([0]))
        folder = os.path.join(self.folder, "mine.spanprof")
        self.assertEqual((recorded.status, recorded.found, reported), (0, [folder], ""))
        self.assertEqual(recorded.said.things[0]["file"], os.path.join(folder, "program.tasks"))
        meta = open_recording(folder).meta
        self.assertEqual((meta["unit"], meta["threads"], meta["elapsed_ns"]), ("us", {"asked": 3}, 30))
        self.assertEqual((meta["usage"]["minor_faults"], self.names()), (410, ["mine.spanprof"]))

    def test_usage_is_that_of_the_process(self):
        """Of the program that was started, without a usage in its log, it is what the system tells at the end."""
        made, ended = self.session([]), Ended(0, 9, USED, process=7, counters={"cycles": 5})
        counted = (1600000000, 1, 2, 3, 4, 5, 6)
        for number, usage, faults, children in ((7, (), 410, None), (8, (), None, None), (8, counted, 2, 6)):
            folder = os.path.join(self.folder, "mine%d%d.spanprof" % (number, len(usage)))
            log_head(folder, number, usage)
            facts = made.facts_of(ended, "mine", folder)
            self.assertEqual(((facts["usage"] or {}).get("minor_faults"), facts["children_ns"]), (faults, children))
            self.assertEqual(facts["host"]["command_ns"], 1750000000)
            self.assertEqual(facts["counters"], {"cycles": 5} if faults else None)

    def test_processors_are_those_that_the_process_may_use(self):
        """Such as those that mpirun or taskset in a script binds it to."""
        made, folder = self.session([]), os.path.join(self.folder, "mine.spanprof")
        log_head(folder, 7, ())
        for known, processors in (({}, 8), ({7: Process(2, "mine")}, 2), ({7: Process(0, "mine")}, 8),
                                  ({9: Process(1, "sh")}, 8), ({7: Process(16, "mine")}, 8)):
            made.processes = known
            with mock.patch("spanprof.record.session.processors_there_are", return_value=8):
                self.assertEqual(made.facts_of(Ended(0, 9, USED, process=7), "mine", folder)["processors"], processors)

    def test_a_name_that_is_taken(self):
        self.record(self.session([0]))
        recorded, reported = self.record(self.session([0]))
        self.assertEqual([os.path.basename(one) for one in recorded.found], ["mine-2.spanprof"])
        self.assertIn("mine.spanprof is there already: this recording is mine-2.spanprof (--force replaces", reported)

    def test_nothing(self):
        recorded, reported = self.record(self.session([4]))
        self.assertEqual((recorded.status, recorded.found, self.names()), (4, [], []))
        self.assertIn("nothing is recorded: the program met no construct of OpenMP", reported)

    def test_a_converter_that_dies(self):
        """The log stays, and no tool reads a text."""
        fault = {"message": "fault", "log": "", "what": "its converter died: signal 6"}
        recorded, reported = self.record(self.session([0]), lambda *_: [fault])
        self.assertEqual((recorded.found, self.names()), ([], ["mine.spanprof"]))
        self.assertIn("the run is recorded, and its text is not made: ", reported)
        self.assertIn("mine.spanprof has the log alone; spanprof-convert", reported)
        with self.assertRaisesRegex(Fault, "not complete"):
            open_recording(os.path.join(self.folder, "mine.spanprof"))

    def test_the_run_with_the_median_time_is_kept(self):
        recorded, reported = self.record(self.session([0, 0, 0], 3))
        self.assertEqual((recorded.status, len(recorded.found), reported), (0, 1, ""))
        meta = open_recording(recorded.found[0]).meta
        self.assertEqual(meta["runs"], [{"elapsed_ns": 30, "work_ns": 9000, "span_ns": 4000},
                                        {"elapsed_ns": 10, "work_ns": 7000, "span_ns": 5000},
                                        {"elapsed_ns": 20, "work_ns": 8000, "span_ns": 3000}])
        self.assertEqual(self.names(), ["mine.spanprof"])

    def test_a_run_that_fails_is_the_last(self):
        recorded, reported = self.record(self.session([0, 7], 3))
        self.assertEqual((recorded.status, recorded.found, self.names()), (7, [], []))
        self.assertIn("run 2 of 3 is the last", reported)


class Statuses(unittest.TestCase):
    def status(self, recorded, reported=None, change=0.0, **options):
        with mock.patch("spanprof.record.command.Session") as made, contextlib.redirect_stderr(io.StringIO()), \
                mock.patch("spanprof.record.command.report", side_effect=reported):
            made.return_value.begun.side_effect = contextlib.nullcontext
            made.return_value.options.scale, made.return_value.options.runs = None, 1
            made.return_value.record_once.side_effect = [recorded]
            made.return_value.comparison = mock.Mock(is_other=True, change=change)
            return command.record_and_report(argparse.Namespace(**dict(dict(fail_above=None), **options)))

    def test_slower_than_an_earlier_recording(self):
        self.assertEqual(self.status(Recorded(0, ["a"]), change=0.07, fail_above=5), 3)
        self.assertEqual(self.status(Recorded(0, ["a"]), change=0.04, fail_above=5), 0)
        self.assertEqual(self.status(Recorded(7, ["a"]), change=0.07, fail_above=5), 7)

    def test_the_program_decides(self):
        self.assertEqual(self.status(Recorded(0, ["a"])), 0)
        self.assertEqual(self.status(Recorded(3, ["a"]), Fault("spanprof span: out of memory")), 3)
        self.assertEqual(self.status(Recorded(-6)), -6)

    def test_what_goes_wrong_here(self):
        self.assertEqual(self.status(Recorded(0)), 125)
        self.assertEqual(self.status(Recorded(0, ["a"], Messages(True, [{"message": "stopped"}]))), 125)
        self.assertEqual(self.status(Recorded(0, ["a"]), Fault("spanprof span: out of memory")), 125)
        self.assertEqual(self.status(Fault("no such program", 127)), 127)
        self.assertEqual(self.status(KeyboardInterrupt), -2)


if __name__ == "__main__":
    unittest.main()
