import argparse
import contextlib
import io
import json
import os
import tempfile
import unittest
from unittest import mock

from spanprof.record.command import parse
from spanprof.record.run import Ended, Failed, unrecorded
from spanprof.record.scale import costs_by_place, more_runs, scale_json, table_lines
from spanprof.tests.in_folder import InFolder

TEXT = """# recorded: {"program": "mine", "threads": 1, "clock": "wall", "unit": "us"}
omptasks 1
work 5
task {  # a.c:3
work 20
}
task {  # a.c:3
work 30
}
taskwait  # a.c:9
work 2
"""


def made_up(runs=3, processors=4, library=""):
    times = {1: [118, 120, 130], 4: [40, 60, 50]}
    with mock.patch("os.sched_getaffinity", return_value=range(processors)):
        return scale_json({threads: taken[:runs] for threads, taken in times.items()}, library)


def session(costs="", status=0, **options):
    """Its recorded run on one thread leaves this text."""
    def record_aside(out, others):
        asked.append(("recorded", others["OMP_NUM_THREADS"], others["OMP_THREAD_LIMIT"]))
        if costs:
            with open(out + ".tasks", "w", encoding="utf-8") as file:
                file.write(costs)
        return status, out + ".tasks" if costs else ""
    asked, chosen = [], argparse.Namespace(**{"command": ["./mine"], "scale": None, "runs": 3, **options})
    made = argparse.Namespace(path="./mine", options=chosen, preload="/lib/libomp.so.5", library="/r.so", scale=None,
                              record_aside=record_aside)
    return made, asked


class Options(unittest.TestCase):
    def test_numbers(self):
        chosen = parse(["--scale", "4,1,2,4", "--", "./mine"])
        self.assertEqual((chosen.scale, chosen.runs, chosen.threads), ([1, 2, 4], 5, 4))
        self.assertEqual(parse(["--scale", "1,2", "--runs", "3", "./mine"]).runs, 3)
        self.assertEqual((parse(["./mine"]).runs, parse(["./mine"]).scale), (1, None))

    def test_full_has_its_own_number_of_runs(self):
        self.assertEqual(parse(["--full", "--", "./mine"]).runs, 3)
        for other in (["--scale", "1,4"], ["--runs", "3"]):
            self.assertIn("--full does not combine", self.refused("--full", *other))

    def refused(self, *words):
        reported = io.StringIO()
        with contextlib.redirect_stderr(reported), self.assertRaises(SystemExit) as ended:
            parse([*words, "--", "./mine"])
        self.assertEqual(ended.exception.code, 2)
        return reported.getvalue()

    def test_no_numbers(self):
        for wrong in ("", "1,", "1,x", "0,1", "1,1025", "1 2"):
            self.assertIn("%s is not a list of numbers of threads" % wrong, self.refused("--scale", wrong))
        for wrong in ("2,4", "1", "1,1"):
            self.assertIn("%s: expected 1, the base of the speedup" % wrong, self.refused("--scale", wrong))
        self.assertIn("does not combine with --threads", self.refused("--scale", "1,2", "--threads", "2"))


class Unrecorded(unittest.TestCase):
    def measure(self, ends):
        """Times, and the numbers of threads in their order; each run ends with its next time and status."""
        asked, left = [], iter(ends)

        def run(_, __, variables):
            asked.append((int(variables["OMP_NUM_THREADS"]), variables["OMP_TOOL"]))
            elapsed, status = next(left)
            return Ended(status, elapsed, None)
        made = argparse.Namespace(preload="", library="/r.so", path="./mine",
                                  options=argparse.Namespace(command=["./mine"]))
        with mock.patch("spanprof.record.run.watched", side_effect=run):
            return unrecorded(made, [1, 4], 2), asked

    def test_in_turns(self):
        times, asked = self.measure([(10, 0), (3, 0), (12, 0), (4, 0)])
        self.assertEqual(times, {1: [10, 12], 4: [3, 4]})
        self.assertEqual(asked, [(1, "disabled"), (4, "disabled")] * 2)

    def test_a_run_that_fails(self):
        for status, how in ((3, "with status 3"), (-11, "by SIGSEGV")):
            with self.assertRaisesRegex(Failed, "^unrecorded run 1 of 2 on 4 threads ended %s$" % how) as failed:
                self.measure([(10, 0), (3, status)])
            self.assertEqual(failed.exception.status, status)


class MoreRuns(InFolder):
    def run_in_turns(self, made, asked, ends):
        left = iter(ends)

        def watched(_, __, variables):
            asked.append((variables["OMP_TOOL"], variables["OMP_NUM_THREADS"], variables.get("OMP_THREAD_LIMIT")))
            elapsed, status = next(left)
            return Ended(status, elapsed, None)
        self.write("recording.json", '{"threads": {"most": 4}}')
        with mock.patch("spanprof.record.run.watched", side_effect=watched), \
                contextlib.redirect_stderr(io.StringIO()) as reported, mock.patch.dict(os.environ, {}, clear=True):
            return more_runs(made, self.folder), reported.getvalue()

    def test_in_turns_and_recorded_on_one(self):
        made, asked = session(TEXT)
        made.preload = ""
        found, _ = self.run_in_turns(made, asked, [(10, 0), (40, 0), (11, 0), (41, 0), (12, 0), (42, 0)])
        self.assertEqual((found["true_many"], found["true_one"]), ([10, 11, 12], [40, 41, 42]))
        self.assertEqual(found["cost_on_one"]["task at a.c:3"], 50000)
        self.assertEqual(asked, [("disabled", "4", None), ("disabled", "1", "1")] * 3 + [("recorded", "1", "1")])

    def test_on_the_numbers_that_are_asked_for(self):
        made, asked = session(scale=[1, 2, 4], runs=1)
        found, reported = self.run_in_turns(made, asked, [(9, 0), (5, 0), (3, 0)])
        self.assertEqual((found, reported), ({"true_one": [9], "true_many": [3], "cost_on_one": None}, ""))
        with open(os.path.join(self.folder, "scale.json"), encoding="utf-8") as file:
            self.assertEqual(json.load(file), made.scale)
        self.assertEqual((made.scale["threads"][2]["speedup"], made.scale["runtime"]), (3, "libomp.so.5"))

    def test_a_run_that_fails(self):
        made, asked = session(TEXT)
        found, reported = self.run_in_turns(made, asked, [(10, 0), (40, 3)])
        self.assertEqual((found, made.scale), ({}, None))
        self.assertIn("unrecorded run 1 of 3 on 1 thread ended with status 3: no speedup", reported)

    def test_a_recorded_run_that_fails_or_leaves_nothing(self):
        ends = [(10, 0), (40, 0)] * 3
        found, reported = self.run_in_turns(*session(TEXT, status=-9), ends)
        self.assertEqual(found, {"true_one": [40] * 3, "true_many": [10] * 3})
        self.assertIn("the recorded run on one thread ended by SIGKILL: its costs are not known", reported)
        found, _ = self.run_in_turns(*session(), ends)
        self.assertIsNone(found["cost_on_one"])


class Costs(unittest.TestCase):
    @staticmethod
    def costs(text):
        with tempfile.TemporaryDirectory() as folder:
            path = os.path.join(folder, "mine.tasks")
            with open(path, "w", encoding="utf-8") as file:
                file.write(text)
            return costs_by_place(path)

    def test_by_place_in_nanoseconds(self):
        found = self.costs(TEXT)
        self.assertEqual((found["task at a.c:3"], sum(found.values())), (50000, 57000))

    def test_own_code_of_a_thread_has_its_region_as_in_a_diagnosis(self):
        found = self.costs("omptasks 1\ntaskgroup {  # a.c:3\ntask {  # one of the region's threads\nwork 5\n}\n}\n")
        self.assertEqual(found["code of one of the region's threads at a.c:3"], 5)


class Words(unittest.TestCase):
    def test_the_table(self):
        self.assertEqual(table_lines(made_up()), [
            "threads  median   least  greatest  speedup",
            "      1  120 ns  118 ns    130 ns     1.00",
            "      4   50 ns   40 ns     60 ns     2.40",
            "3 unrecorded runs on each number, in turns: elapsed time of the whole program (measured)",
            "speedup: the median time on one thread over that on so many, the true one (measured)"])

    def test_what_else_is_said(self):
        reported = table_lines(made_up(1, 2, "libomp.so.5"))
        self.assertEqual(reported[3], "one unrecorded run on each number: elapsed time of the whole program, "
                                      "on libomp.so.5 (measured)")
        self.assertEqual(reported[5:], ["on 4 threads they share 2 processors"])

    def test_json(self):
        four = json.loads(json.dumps(made_up()))["threads"][1]
        self.assertEqual((four["median"], four["speedup"], four["speedup from"], four["speedup to"]),
                         (50, 2.4, 2, 3))


if __name__ == "__main__":
    unittest.main()
