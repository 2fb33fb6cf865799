import json
import os
import tempfile
import unittest
from collections import Counter
from functools import partial
from types import SimpleNamespace
from unittest import mock

from spanprof.command import Fault
from spanprof.diagnosis import facts as module
from spanprof.diagnosis.calls import AT_START, RUNTIME, Sampled, calls_of
from spanprof.diagnosis.diagnose import diagnose
from spanprof.diagnosis.facts import (Facts, Held, denied_time, function_in, inner_regions, locks_of, of_those_at_once,
                                      off_by_segment, regions_of, runtime_name, set_meta, set_off, set_ranks,
                                      set_waiting, starting_shares, stolen_share, used_by_others)
from spanprof.diagnosis.places import AFTER_REGION, OWN, SERIAL
from spanprof.diagnosis.sentences import sure_words
from spanprof.diagnosis.tests.worked import MS, TEXT, facts, place, program
from spanprof.head import read_head
from spanprof.recording import Program, Region, open_recording, program_of
from spanprof.tests.columns import rows_of
from spanprof.time_breakdown import TimeBreakdown

HEAD = """# recorded: {"program": "image", "threads": 2, "clock": "wall", "unit": "us"}
# whole program: {"regions": 1}
# covers: {"text": 99, "program": 100}
# elapsed: 120
# lock: {"kind": "critical", "at": "image.c:27", "times": 2, "inside": 1, "waiting": 3}
# remark: {"remark": "mutexinoutset", "times": 2, "at": "image.c:25", "span": "low"}
# place: {"at": "image.c:25", "in": "main.omp_outlined"}
"""
NUMBERS = {"segments": 9, "work": 132, "span": 80}


class OfText(unittest.TestCase):
    def setUp(self):
        self.found = module.of_text(read_head(HEAD), program(unit=1000), NUMBERS)

    def test_times_are_in_nanoseconds(self):
        found = self.found
        self.assertEqual((found.elapsed, found.work, found.span), (120000, 132000, 80000))
        self.assertEqual(found.places["task at image.c:25"].cost, 100000)
        self.assertEqual((found.program, found.threads, found.coverage), ("image", 2, 0.99))

    def test_tasks_exclude_each_other_where_a_remark_says_so(self):
        text = TEXT.replace("inout: a0", "inoutset: a0")
        for remark, exclusive in (("mutexinoutset", 2), ("detach", 0)):
            found = module.of_text(read_head(HEAD.replace("mutexinoutset", remark)), program(text), NUMBERS)
            self.assertEqual(found.places["task at image.c:25"].exclusive, exclusive)

    def test_without_the_times_of_the_run_the_greedy_run_divides_them(self):
        module.set_by_greedy(self.found, read_head(HEAD), 90)
        self.assertEqual((self.found.code, self.found.starved, self.found.delayed), (132000, 48000, 60000))
        differ = '# clocks differ: {"affected": 9, "work": 9, "by": 32, "times": 1}'
        module.set_by_greedy(self.found, read_head(HEAD + differ), 90)
        self.assertEqual((self.found.code, self.found.preempted, self.found.starved), (100000, 32000, 48000))

    def test_while_others_had_a_processor_the_other_threads_waited(self):
        taken = '# taken off: {"affected": 1, "work": 9, "by": 15, "times": 1}'
        module.set_by_greedy(self.found, read_head(HEAD.replace('"wall"', '"own"') + taken), 90)
        self.assertEqual((self.found.code, self.found.preempted, self.found.starved), (132000, 15000, 63000))
        heaviest = max(self.found.places, key=lambda name: self.found.places[name].cost)
        self.assertEqual(self.found.starved_by[heaviest], self.found.starved_off[heaviest])
        self.assertEqual(self.found.code + self.found.preempted + self.found.starved + self.found.delayed,
                         self.found.threads * self.found.elapsed)

    def test_time_off_the_processor_by_place(self):
        set_off(self.found, {4: (1000, 50000), 2: (0, 5000)}, program())
        self.assertEqual(self.found.preempted_by, {"task at image.c:25": 55000})
        self.assertEqual(self.found.asleep_by, {"task at image.c:25": 1000})

    def test_what_runs_before_the_programs_first_function_is_its_start(self):
        begins = place("the beginning", SERIAL, cost=100 * MS, pieces=1, tasks=0)
        ran = {("_GLOBAL__sub_I_main", "Table::Table"): 60000, ("dl_start@ld-linux.so.2",): 12000,
               ("main", "PMPI_Init"): 4000, ("main", "read"): 16000}
        found = facts([begins], starved=300 * MS, starved_by={begins.name: 300 * MS},
                      calls=Sampled({begins.name: ran}, {}))
        module.set_starting(found)
        self.assertEqual(found.calls.ran, {begins.name: {("main", "read"): 16000}})
        reported = diagnose(found)
        self.assertEqual({loss.kind: loss.time for loss in reported.losses}, {"startup": 228 * MS, "serial": 72 * MS})
        self.assertIn("startup 57 %", sure_words(reported))

    def test_sleep_before_the_programs_first_function_is_of_its_start(self):
        begins = place("the beginning", SERIAL, cost=100 * MS, pieces=1, tasks=0)
        slept = {begins.name: {("main", "PMPI_Init"): 60000}}
        found = facts([begins], starved=300 * MS, starved_by={begins.name: 300 * MS}, asleep=60 * MS,
                      asleep_by={begins.name: 60 * MS}, calls=Sampled({begins.name: {("main", "solve"): 40000}}, slept))
        module.set_starting(found)
        self.assertEqual({loss.kind for loss in diagnose(found).losses}, {"startup", "serial"})

    def test_an_interpreter_sleeps_where_it_starts(self):
        name, calls = "the beginning", {("read@libc.so.6",): 4000, ("load", "python3.11@python3.11"): 5000,
                                        ("start@python3.11",): 6000, ("libc_start_main@libc.so.6",): 7000,
                                        ("main", "wait"): 8000}
        found = facts([place(name, SERIAL)], asleep_by={name: 40 * MS}, calls=Sampled({}, {name: dict(calls)}))
        module.set_starting(found)
        self.assertEqual(found.calls.slept[name], {("read@libc.so.6",): 4000, ("main", "wait"): 8000})
        self.assertEqual(found.asleep_by, {name: 22 * MS, AT_START: 18 * MS})

    def test_names_of_functions(self):
        self.assertEqual(self.found.functions, {"image.c:25": "main"})
        self.assertEqual(function_in("in sort(int*, int), inlined into main at sort.c:9"), "sort")


class Recorded(unittest.TestCase):
    def test_what_is_missing_is_none(self):
        found = Facts()
        set_meta(found, {})
        self.assertEqual((found.asked, found.processors, found.usage), (None, None, None))
        set_meta(found, {"threads": {"asked": 3}, "processors": 8, "runtime": {"name": "llvm", "version": "19"}})
        self.assertEqual((found.asked, found.processors, found.runtime, found.target), (3, 8, "LLVM 19", 3))
        self.assertEqual(runtime_name({}), "")

    def test_what_the_host_took(self):
        self.assertEqual(stolen_share({"host_processors": 4, "stolen_ns": 20}, 100), 0.05)
        self.assertEqual(stolen_share({"host_processors": 4, "stolen_ns": None}, 100), 0.0)
        self.assertEqual(stolen_share({}, 100), 0.0)

    def test_what_other_programs_used(self):
        usage = {"user_ns": 70, "system_ns": 20}
        self.assertEqual(used_by_others({"busy_ns": 100, "stolen_ns": 5}, usage), 15)
        self.assertEqual(used_by_others({"busy_ns": 80}, usage), 0)
        self.assertEqual(used_by_others({"busy_ns": 100, "command_ns": 97}, usage), 3)
        self.assertIsNone(used_by_others({"stolen_ns": 5}, usage))

    def test_the_threads_that_a_run_could_have_had(self):
        self.assertEqual(facts(threads=2).target, 4)
        self.assertEqual(facts(threads=2, asked=2).target, 2)
        self.assertEqual(facts(threads=2, asked=16).target, 4)
        self.assertEqual((facts(threads=16).target, facts(threads=16).usable), (16, 4))

    def test_the_time_now_is_that_of_unrecorded_runs(self):
        self.assertEqual(facts(true_many=[3, 1, 2]).now, 2)
        self.assertEqual(facts().now, 100 * MS)
        self.assertEqual((facts(taken=40 * MS).seen, facts(taken=40 * MS).now), (100 * MS, 90 * MS))

    def test_files_beside_a_text(self):
        with tempfile.TemporaryDirectory() as folder:
            for name, text in (("off", "0 5 7\n2 1 0\n"), ("recording.json", "{}"),
                               ("regions", "number,text,begin_ns,end_ns,threads,tasks,loops,code_ns,inside,place\n"
                                "0,0,0,100,1,0,0,5,0,\n1,1,10,60,2,3,0,5,0,image.c:20\n")):
                with open(os.path.join(folder, name), "w", encoding="utf-8") as file:
                    file.write(text)
            self.assertEqual(off_by_segment(os.path.join(folder, "off"), None), {0: (5, 7), 2: (1, 0)})
            self.assertEqual(off_by_segment("", read_head(HEAD + "# preempted: [[7, 384]]\n")), {7: (0, 384000)})
            found = regions_of(program_of(os.path.join(folder, "program.tasks")))
            self.assertEqual([(one.place, one.threads, one.elapsed) for one in found], [("image.c:20", 2, 50)])

    def test_damaged_files_beside_a_text(self):
        with tempfile.TemporaryDirectory() as folder:
            path = os.path.join(folder, "m")
            for read, line in ((off_by_segment, "0 5"), (locks_of, "[" * 100000), (locks_of, '{"times": 3}'),
                               (partial(calls_of, names=["a place"]), "0 jumped 5 main")):
                with open(path, "w", encoding="utf-8") as file:
                    file.write(line + "\n")
                with self.assertRaisesRegex(Fault, "/m is damaged: "):
                    read(path, [0])

    def test_locks_of_a_head_and_of_a_file(self):
        self.assertEqual(locks_of("", read_head(HEAD)), [Held("image.c:27", "critical", 2, 1000, 3000)])
        with tempfile.TemporaryDirectory() as folder:
            path = os.path.join(folder, "locks")
            with open(path, "w", encoding="utf-8") as file:
                for waited in (5, 9):
                    file.write(json.dumps({"place": "a.c:1", "kind": "lock", "times": 1, "inside_ns": 2,
                                           "waited_ns": waited}) + "\n")
            self.assertEqual([one.waited for one in locks_of(path, read_head(""))], [9, 5])

    def test_a_text_without_times(self):
        with tempfile.TemporaryDirectory() as folder:
            path = os.path.join(folder, "m.tasks")
            with open(path, "w", encoding="utf-8") as file:
                file.write(HEAD + TEXT)
            with mock.patch("spanprof.client.measured", return_value=NUMBERS):
                found = module.facts_of(open_recording(path), lambda *_: 90)
            self.assertEqual(found.code + found.starved + found.delayed, found.whole_time)


class Starting(unittest.TestCase):
    def test_delays_as_long_as_a_runtime_takes_are_of_regions_that_start(self):
        rows = [(1, 0, 2000, 9000), (2, 0, 150000, 160000), (0, 160000, 165000, 170000), (0, 0, 0, 1)]
        places = [OWN + " at a.c:3", OWN + " at a.c:3", AFTER_REGION + " at a.c:3", "task at a.c:5"]
        found = starting_shares(SimpleNamespace(rows=rows_of(rows), places=places))
        self.assertEqual(found, {places[0]: 52000 / 152000, places[2]: 1.0})

    def test_the_same_as_a_converter_adds_them_up(self):
        self.assertEqual(module.starting_of_kinds([[0, 100, 40], [1, 0, 0], [2, 60, 24]], ["a", "b", "a"]), {"a": 0.4})

    def test_rows_are_asked_for_where_threads_are_numbered_anew(self):
        run, code = facts(threads=2), SimpleNamespace(delays=[])
        with tempfile.TemporaryDirectory() as folder:
            path = os.path.join(folder, "times")
            with open(path, "w", encoding="utf-8") as file:
                file.write("times 2 0 9\n0 0 0 9\n")
            made = SimpleNamespace(times=path)
            self.assertTrue(module.has_sums(run, made, code))
            run.threads = 4
            self.assertFalse(module.has_sums(run, made, code))
            self.assertFalse(module.has_sums(run, made, SimpleNamespace(delays=None)))

    def test_regions_as_a_converter_adds_them_up(self):
        teams = ((10, 4, 4), (20, 2, 2), (30, 2, 3), (40, 4, 9))
        some = [Region(1 + i, 0, 0, end, threads, 0, 0, 0, 0, "a.c:1", asked) for i, (end, threads, asked) in
                enumerate(teams)]
        self.assertEqual(module.regions_in_sums([["a.c:1", 4, 40, 0, [[2, 50, 3], [4, 50, 9]]]]),
                         regions_of(Program(90, some)))
        run = facts()
        module.set_regions(run, "nowhere", SimpleNamespace(regions=(False, [["", 1, 9, 30, [[4, 9, 0]]]])))
        self.assertEqual((run.tasks_in_regions, [(one.place, one.asked, one.code) for one in run.regions]),
                         (False, [("a region", None, 30)]))

    def test_threads_that_only_took_turns_are_not_idle(self):
        rows = [(0, 0, 0, 10), (5, 10, 10, 30), (0, 30, 30, 40)]
        found = TimeBreakdown(8, 50, 40, 0, 240, 120, rows=rows_of(rows), places=["a", "b", "c"])
        with mock.patch("spanprof.client.places", lambda _, of, wanted, times: ([0, 0, 0], [10, 20, 10])):
            one = of_those_at_once(found, 2)
        self.assertEqual((one.threads, one.delayed, one.starved, one.outside), (2, 0, 40, 20))
        self.assertEqual(sum(one.parts.values()), 2 * 50)
        self.assertIs(of_those_at_once(found, 8), found)

    def test_a_call_of_mpi_waits_for_other_ranks(self):
        run = facts(calls=Sampled({"the beginning": {("main", "MPI_Allreduce"): 8000, ("main", "MPI_Init"): 9000}}, {}))
        set_ranks(run)
        self.assertEqual(run.calls, Sampled({"the beginning": {("main", "MPI_Init"): 9000}},
                                            {"the beginning": {("main", "MPI_Allreduce"): 8000}}))
        self.assertEqual(run.asleep_by, {"the beginning": 8 * MS})

    def test_samples_of_threads_that_wait_for_locks_are_none_of_code(self):
        """Of 140 ms that samples saw 100 are code, and 10 of these in the runtime."""
        ran = {("main", RUNTIME): 50000, ("main",): 90000}
        for at_locks, left in ((40, 10000), (500, 10000), (20, 30000), (0, 50000)):
            run = facts([place("task at a.c:9", cost=100 * MS)], at_locks=at_locks * MS,
                        calls=Sampled({"task at a.c:9": Counter(ran)}, {}))
            set_waiting(run)
            self.assertEqual(run.calls.ran["task at a.c:9"], {("main", RUNTIME): left, ("main",): 90000})

    def test_regions_inside_others_add_their_threads(self):
        outer, inner, alone = (Region(i, 0, *times, 0, 0, 0, i > 1, "a.c:%d" % i) for i, times in
                               ((1, (0, 100, 1)), (2, (20, 70, 4)), (3, (80, 90, 1))))
        run = Program(100, [outer, inner, alone])
        self.assertEqual([(one.elapsed, one.added) for one in regions_of(run)], [(100, 3 * 50)])
        outer = alone._replace(number=4, begin=90, end=99, threads=4, inside=0)
        nested = alone._replace(number=5, begin=91, end=95, threads=2)
        later, beside = nested._replace(begin=95, end=97, threads=3), nested._replace(begin=94, end=99, threads=4)
        programs = [Program(100, [outer, nested, other]) for other in (later, beside)]
        self.assertEqual([(one.place, one.threads, one.times, one.elapsed) for one in inner_regions(run)],
                         [("a.c:2", 4, 1, 50)])
        self.assertEqual([one.together for some in programs for one in inner_regions(some)], [1, 2])

    def test_regions_at_one_place_may_have_teams_of_several_sizes(self):
        """Who asked for the smallest is told."""
        teams = ((10, 4, 4), (20, 2, 2), (30, 2, 3), (40, 4, 9))
        some = [Region(1 + i, 0, 0, end, threads, 0, 0, 0, 0, "a.c:1", asked) for i, (end, threads, asked) in
                enumerate(teams)]
        found, = regions_of(Program(90, some))
        self.assertEqual((found.sizes, found.asked, found.times), ({4: 50, 2: 50}, 3, 4))

    def test_a_region_inside_another_that_got_one_thread_of_several(self):
        """Of three regions the longest lasts 60; all of them together would last 20 on four threads."""
        outer = Region(1, 0, 0, 90, 4, 0, 0, 0, 0, "a.c:1", 4)
        inner = [Region(2 + i, 0, 10, 10 + length, 1, 0, 0, 0, 1, "a.c:9", asked) for i, (length, asked) in
                 enumerate(((60, 4), (12, 4), (8, 4), (70, 1)))]
        self.assertEqual(denied_time(Program(100, [outer, *inner]), 4), {"a.c:9": 4 * 60 - 80})
        self.assertEqual(denied_time(Program(100, [outer, *[inner[0]._replace(number=i) for i in range(8)]]), 4), {})
        few = [outer._replace(threads=2),
               *(inner[0]._replace(number=i, begin=i * 10, end=i * 10 + 9) for i in range(8))]
        self.assertEqual(denied_time(Program(100, few), 4), {"a.c:9": 2 * 72})
        self.assertEqual(denied_time(Program(100, few), 4, 3), {"a.c:9": 2 * 72 - 8 * 3 * 4 // 2})
        self.assertEqual(denied_time(Program(100, few), 4, 9), {})      # to start them takes longer than they win
        self.assertEqual(denied_time(None, 4), {})


if __name__ == "__main__":
    unittest.main()
