"""Which summaries are printed of recordings."""
import argparse
import contextlib
import io
import json
import os
import unittest
from unittest import mock

from spanprof.answers import take_runs
from spanprof.record import command
from spanprof.record.session import Recorded
from spanprof.record.tests.made_up import Answers, Head
from spanprof.remarks import Messages, remark_of
from spanprof.tests.in_folder import InFolder
from spanprof.tests.recordings import recording

TURNS = {"remark": "turns together", "span": "high"}
WHOLE = {"region": "", "whole": "1 region", "covered": 100}


class Printed(InFolder):
    """What is printed of recordings whose texts have made-up answers."""

    def setUp(self):
        super().setUp()
        patch = mock.patch("spanprof.record.command.diagnosed", return_value=(None, ""))
        self.diagnosed = patch.start()
        self.addCleanup(patch.stop)
        self.heads, self.works = {}, {}

    def answered(self, recording):
        name = recording.name
        return Answers(name=name, work=self.works.get(name, 100), head=Head(**dict(WHOLE, **self.heads.get(name, {}))))

    def reported(self, *folders, things=(), rank=None, **options):
        chosen = argparse.Namespace(**dict(dict(json=None, runs=1, all=True, against=None), **options))
        made = mock.Mock(notes=["a note"], rank=rank, out=os.path.join(self.folder, "mine"), options=chosen,
                         work=argparse.Namespace(name="mine"), others="2 others met no OpenMP")
        with mock.patch("spanprof.record.command.Answers", side_effect=self.answered), \
                contextlib.redirect_stderr(io.StringIO()) as reported:
            command.print_summaries(made, Recorded(0, list(folders), Messages(True, list(things))))
        return reported.getvalue().splitlines()

    def test_one_of_the_whole_program(self):
        reported = self.reported(recording(self.folder))
        self.assertEqual(reported[0], "mine.spanprof, the whole program, 4 threads, costs in us of wall time")
        self.assertTrue(reported[1].startswith("program       100 ns: 60.0 % outside of regions"))
        self.assertEqual(reported[-2:], ["warnings      a note", "              2 others met no OpenMP"])

    def test_the_diagnosis_alone_where_there_is_one(self):
        self.diagnosed.return_value = mock.Mock(lines=lambda more, news: ["now: " + more, *news],
                                                sum_lines=lambda: ["9 % code"]), ""
        folder = recording(self.folder)
        self.assertEqual(self.reported(folder, all=False),
                         ["now: spanprof-report %s" % folder, "a note"])
        self.assertEqual(self.reported(recording(self.folder))[-1], "losses        9 % code")
        counted = {"counters": {"cycles": 2, "instructions": 3}}
        self.assertEqual(self.reported(recording(self.folder, facts=counted))[-1],
                         "counters      1.50 instructions per cycle (measured)")
        self.diagnosed.return_value = None, "no diagnosis: no program"
        self.assertEqual(self.reported(recording(self.folder), all=False)[-1], "              no diagnosis: no program")

    def test_a_remark_of_its_text_is_reported_once(self):
        self.heads["mine.spanprof"] = {"remarks": [remark_of(TURNS)]}
        reported = self.reported(recording(self.folder),
                                 things=[{"message": "remark", "name": "mine", "remark": TURNS}])
        self.assertEqual("\n".join(reported).count("chunk with more iterations than pieces"), 1)

    def test_its_own_text_is_no_news(self):
        folder = recording(self.folder)
        reported = self.reported(folder, things=[{"message": "text", "file": os.path.join(folder, "program.tasks")}])
        self.assertEqual(reported[-2:], ["warnings      a note", "              2 others met no OpenMP"])

    def test_several_runs(self):
        """By recording.json, in the unit of the text."""
        head = Head()
        take_runs(head, [{"elapsed_ns": 9, "work_ns": work * 1000, "span_ns": 70000} for work in (90, 120, 100)])
        self.assertEqual((head.runs, head.spread), (3, {"work": (90, 100, 120), "span": (70, 70, 70)}))

    def test_ranks(self):
        folders = [recording(self.folder, "mine.rank%d" % rank) for rank in (0, 1)]
        self.works["mine.rank1.spanprof"] = 200
        reported = self.reported(*folders)
        self.assertTrue(reported[0].startswith("mine.rank1.spanprof, the whole program"))
        self.assertEqual(reported[-1], "other ranks   mine.rank0.spanprof, the whole program: work 100 us, span 70 us")

    def test_the_rank_that_others_wait_for(self):
        calls = "0 ran %d main;MPI_Recv\n0 ran 90000 sort\n"
        folders = [recording(self.folder, "mine.rank%d" % rank, calls=calls % time)
                   for rank, time in enumerate((80000, 2000, 90000))]
        self.works["mine.rank0.spanprof"] = 200
        reported = self.reported(*folders)
        self.assertTrue(reported[0].startswith("mine.rank1.spanprof, the whole program"))
        self.assertEqual(reported[-1],
                         "rank  the others wait for rank 1: 80.0 ms to 90.0 ms in calls of MPI, it 2.00 ms")

    def test_no_diagnosis_of_what_was_recorded_in_part(self):
        self.diagnosed.side_effect = lambda _, is_cut: (None, "no diagnosis") if is_cut else self.fail("diagnosed")
        stopped = {"message": "stopped", "why": "full", "recorded": 1500000}
        reported = self.reported(recording(self.folder), things=[stopped], all=False)
        self.assertEqual(reported, ["mine.spanprof: a note",
                                    "mine.spanprof: the disk was full 1.5 ms after recording began, and what followed "
                                    "is not recorded", "mine.spanprof: no diagnosis"])

    def test_of_several_processes_that_with_the_most_processor_time(self):
        """None need be of the program that was started."""
        small, large = ({"usage": {"user_ns": time, "system_ns": 1}} for time in (5, 7))
        folders = [recording(self.folder, "mine.child%d" % number, facts=facts)
                   for number, facts in ((1, small), (2, large), (3, {}))]
        remark = dict(message="remark", name=os.path.join(folders[0], "program"), remark=TURNS)
        reported = self.reported(*folders, things=[remark])
        self.assertTrue(reported[0].startswith("mine.child2.spanprof, the whole program"))
        self.assertIn("mine.child2.spanprof used the most processor time of 3 recorded processes", "\n".join(reported))
        self.assertNotIn("chunk with", "\n".join(reported))
        main = recording(self.folder, facts={"usage": {"user_ns": 9}})
        self.assertTrue(self.reported(main, *folders)[0].startswith("mine.spanprof, the whole program"))

    def test_each_process_of_mpi_tells_a_line(self):
        self.assertEqual(self.reported(recording(self.folder, "mine.rank1"), rank=1), [
            "mine.rank1.spanprof, the whole program: work 100 us, span 70 us", "mine: a note"])

    def test_json(self):
        path = os.path.join(self.folder, "told.json")
        self.diagnosed.return_value = mock.Mock(lines=lambda *_: [], sum_lines=list, json=lambda: {"diagnosis": []}), ""
        self.reported(recording(self.folder), json=path)
        with open(path, encoding="utf-8") as file:
            reported = json.load(file)
        self.assertEqual((reported["text"], reported["work"], reported["scale"]), ("mine.spanprof", 100, None))
        self.assertEqual(reported["diagnosis"], [])


if __name__ == "__main__":
    unittest.main()
