"""Each kind of cause by facts that have it; and that no kind is without a row in the manual."""
import os
import unittest
from collections import Counter

from spanprof.diagnosis.calls import RUNTIME, Sampled
from spanprof.diagnosis.causes import BY_KIND, TABLE
from spanprof.diagnosis.diagnose import diagnose
from spanprof.diagnosis.facts import Held, Region, set_library_locks
from spanprof.diagnosis.losses import Loss, in_code_losses
from spanprof.diagnosis.names import Names
from spanprof.diagnosis.places import AFTER_REGION, OF_THREADS, OWN, SERIAL, SHARE
from spanprof.diagnosis.sentences import change_sentence
from spanprof.diagnosis.tests.worked import MS, facts, place
from spanprof.folders import TOP

TASKS = "task at image.c:25"
MANUAL = os.path.join(TOP, "tools", "man", "spanprof-record.1")


def starved_at(one, **more):
    return facts([one], starved=200 * MS, starved_by={one.name: 200 * MS}, **more)


def delayed_at(one, **more):
    return facts([one], delayed=200 * MS, delayed_by={one.name: 200 * MS}, **more)


def small(count=4000, **more):
    return place(TASKS, cost=count * 1000, pieces=count, tasks=count, **more)


class Kinds(unittest.TestCase):
    """A test for each kind, by its name."""

    def first(self, found):
        return diagnose(found).causes[0].kind

    def test_serial(self):
        self.assertEqual(self.first(starved_at(place("the beginning", SERIAL, tasks=0, pieces=1))), "serial")
        self.assertEqual(self.first(starved_at(place("after taskwait at image.c:30", OF_THREADS, tasks=0))), "serial")

    def test_too_few_tasks(self):
        self.assertEqual(self.first(starved_at(place(TASKS, pieces=5, tasks=5))), "too_few_tasks")

    def test_a_program_without_tasks_hears_of_none(self):
        begins = place("the beginning", SERIAL, tasks=0, pieces=1)
        own = place(OWN + " at image.c:20", OF_THREADS, cost=MS, pieces=1, tasks=1)
        for starved_by in ({}, {"": 200 * MS}):
            found = diagnose(facts([begins, own], starved=200 * MS, starved_by=starved_by)).causes[0]
            self.assertEqual((found.kind, found.place), ("serial", "" if starved_by else begins.name))
        self.assertEqual(self.first(starved_at(place("after taskwait at image.c:30", tasks=0))), "serial")
        self.assertEqual(self.first(facts([place(TASKS)], starved=200 * MS)), "too_few_tasks")

    def test_imbalance(self):
        one = place(TASKS)
        one.largest = 3 * int(one.average)
        self.assertEqual(self.first(starved_at(one)), "imbalance")

    def test_dependence(self):
        one = place(TASKS)
        one.items[("inout", "a0")] = 8
        self.assertEqual(self.first(starved_at(one)), "dependence")

    def test_without_times_of_the_run_all_of_its_tasks_tell(self):
        making = place("after creating a task at image.c:25", SERIAL, cost=140 * MS, pieces=400, tasks=0)
        for places, kind in (([small()], "small_tasks"), ([place(TASKS, pieces=400, tasks=400), making], "creation"),
                             ([place(TASKS, undeferred=8)], "undeferred"), ([place(TASKS)], "machine")):
            found = diagnose(facts(places, delayed=200 * MS)).causes[0]
            self.assertEqual((found.kind, found.place), (kind, TASKS if kind != "machine" else ""))
        self.assertEqual(diagnose(facts([place(TASKS, undeferred=8)], starved=200 * MS)).causes[0].place, TASKS)

    def test_small_tasks(self):
        making = place("after creating a task at image.c:25", tasks=0, pieces=4000)
        found = delayed_at(small())
        found.places[making.name] = making
        self.assertEqual(self.first(found), "small_tasks")

    def test_a_few_small_tasks_cost_little(self):
        self.assertEqual(self.first(delayed_at(small(200))), "machine")
        self.assertEqual(self.first(delayed_at(small(2000))), "small_tasks")

    def test_creation(self):
        for each, kind in ((2000, "creation"), (200, "small_tasks")):
            making = place("after creating a task at image.c:25", OF_THREADS, tasks=0, pieces=4000, cost=4000 * each)
            found = delayed_at(small())
            found.places[making.name] = making
            self.assertEqual(self.first(found), kind)

    def test_tasks_in_a_row(self):
        chain = place(TASKS, again=5)
        chain.items.update({("inout", "a%d" % number): 2 for number in range(4)})
        self.assertEqual(self.first(starved_at(chain)), "dependence")
        chain.again = 4
        self.assertEqual(self.first(starved_at(chain)), "too_few_tasks")
        chain.moving.update(list(chain.items))
        self.assertEqual(self.first(starved_at(chain)), "too_few_tasks")
        chain.items.update({("inout", "a0"): 1})
        self.assertEqual(self.first(starved_at(chain)), "dependence")

    def test_undeferred(self):
        self.assertEqual(self.first(starved_at(place(TASKS, undeferred=8))), "undeferred")

    def test_undeferred_tasks_are_not_too_small(self):
        cut = small(undeferred=3980)        # from the first levels on
        self.assertEqual(self.first(facts([cut], starved=200 * MS)), "undeferred")
        self.assertEqual(self.first(starved_at(cut)), "undeferred")
        cut.undeferred = 3600               # late enough for 400 that threads can share
        self.assertNotIn(self.first(facts([cut], starved=200 * MS)), ("undeferred", "small_tasks"))
        self.assertNotIn(self.first(facts([cut], starved=10 * MS)), ("undeferred", "small_tasks"))

    def test_loop_schedule(self):
        turns = place("turns of the loop at image.c:9", SHARE, uneven=200 * MS)
        self.assertEqual(self.first(delayed_at(turns)), "loop_schedule")
        turns.uneven = 9 * MS      # what others waited for more is no fault of how it is divided
        self.assertEqual(self.first(delayed_at(turns, preempted=20 * MS)), "machine")
        held = [Held("image.c:27", "critical", 9, 1, 150 * MS)]
        self.assertEqual(self.first(delayed_at(turns, at_locks=20 * MS, locks=held)), "lock")
        self.assertEqual(self.first(delayed_at(turns)), "loop_schedule")

    def test_barrier(self):
        turns = place("turns of the loop at image.c:9", SHARE, uneven=200 * MS)
        self.assertEqual(self.first(delayed_at(turns, barriers={turns.name: (turns.name, 0.8)})), "barrier")

    def test_lock(self):
        found = facts([place(TASKS)], at_locks=150 * MS, locks=[Held("image.c:27", "critical", 9, 1, 150 * MS)])
        self.assertEqual(self.first(found), "lock")
        self.assertEqual(diagnose(found).causes[0].place, "image.c:27")

    def test_exclusion(self):
        self.assertEqual(self.first(delayed_at(place(TASKS, exclusive=8))), "exclusion")

    def test_spin(self):
        calls = Sampled({TASKS: Counter({("main", "wait_for"): 60000, ("main", "tone"): 40000})}, {},
                        spins={TASKS: Counter({"image.c:31": 60000})})
        reported = diagnose(facts([place(TASKS, cost=400 * MS)], calls=calls))
        self.assertEqual(reported.causes, [Loss("spin", TASKS, 240 * MS)])
        self.assertTrue(reported.plan[0].at_best)

    def test_memory(self):
        found = facts([place(TASKS, cost=400 * MS)], cost_on_one={TASKS: 100 * MS})
        self.assertEqual(self.first(found), "memory")

    def test_strides(self):
        """Of 40 samples of a loop 32 are at columns, whose lines seven of eight elements in a row need no more."""
        turns = place("turns of the loop at image.c:9", SHARE, cost=400 * MS)
        sampled = Sampled({turns.name: {("main",): 160000}}, {}, at={turns.name: {"image.c:11": 152000}},
                          strides={turns.name: {"image.c:11": 128000}}, loops={turns.name: {"image.c:10": 128000}})
        found = facts([turns], calls=sampled)
        self.assertEqual(diagnose(found).causes, [Loss("strides", turns.name, 280 * MS)])
        step = diagnose(found).plan[0]
        self.assertEqual((step.after, step.low), (30 * MS, 5 * MS))
        self.assertEqual(change_sentence(found, Names(found, None), step),
                         "adjacent elements at image.c:10: swap or block loops")

    def test_allocation(self):
        called = {TASKS: {("main", "parse", "malloc@libc.so.6"): 30000, ("main", "parse"): 70000}}
        lines = {TASKS: {"words.c:9 parse(char*)": 20000, "words.c:12 parse(char*)": 10000}}
        found = facts([place(TASKS, cost=400 * MS)], calls=Sampled(called, {}, {}, {}, lines))
        reported = diagnose(found)
        self.assertEqual(reported.causes, [Loss("allocation", "allocation at words.c:9", 120 * MS)])
        self.assertFalse(reported.plan[0].at_best)

    def test_the_kernels_time_beneath_the_allocator_counts_once(self):
        called = {TASKS: {("main", "parse", "free@libc.so.6"): 30000, ("main", "parse"): 70000}}
        calls = Sampled(called, {}, {}, {}, {TASKS: {"words.c:9 parse": 30000}})
        for system, kind, lost in ((110, "allocation", 120), (300, "system", 300)):
            usage = {"user_ns": (400 - system) * MS, "system_ns": system * MS}
            found = in_code_losses(facts([place(TASKS, cost=400 * MS)], calls=calls, usage=usage))
            self.assertEqual({loss.kind: loss.time for loss in found if loss.time}, {kind: lost * MS})

    def test_what_serial_code_allocates_is_no_cause(self):
        begins = place("the beginning", SERIAL, cost=400 * MS, pieces=1, tasks=0)
        calls = Sampled({begins.name: {("main",): 100000}}, {}, {}, {}, {begins.name: {"words.c:9 main": 90000}})
        self.assertEqual([loss for loss in in_code_losses(facts([begins], calls=calls)) if loss.time], [])

    def test_system(self):
        usage = {"user_ns": 100 * MS, "system_ns": 300 * MS, "minor_faults": 400000}
        self.assertEqual(self.first(facts([place(TASKS)], usage=usage)), "system")

    def test_many_calls_of_the_kernel(self):
        usage = {"user_ns": 60 * MS, "system_ns": 350 * MS, "minor_faults": 600}
        self.assertEqual(self.first(facts([place(TASKS)], starved=20 * MS, usage=usage)), "system")

    def test_pages_that_serial_code_touches_first_are_no_cause(self):
        usage = {"user_ns": 100 * MS, "system_ns": 300 * MS, "minor_faults": 400000}
        begins = place("the beginning", SERIAL, cost=310 * MS, pieces=1, tasks=0)
        self.assertNotEqual(self.first(facts([place(TASKS), begins], usage=usage)), "system")

    def test_sleep(self):
        self.assertEqual(self.first(facts([place(TASKS)], asleep=150 * MS)), "sleep")
        slept = {TASKS: {("main", "read"): 9}}
        for preempted, calls, kind in ((0, {}, "sleep"), (90, slept, "sleep"), (90, {}, "machine")):
            found = facts([place(TASKS)], asleep=150 * MS, asleep_by={TASKS: 150 * MS}, preempted=preempted * MS,
                          calls=Sampled({TASKS: {("main",): 9}}, calls))
            self.assertEqual(self.first(found), kind)

    def test_small_regions(self):
        own, after = (place(name + " at image.c:20", OF_THREADS, cost=MS, pieces=9000, tasks=0)
                      for name in (OWN, AFTER_REGION))
        by = {own.name: 140 * MS, after.name: 60 * MS}
        found = facts([own, after], delayed=200 * MS, delayed_by=by, starting_by=dict.fromkeys(by, 1.0),
                      regions=[Region("image.c:20", 4, 90 * MS, times=3000)])
        self.assertEqual([(one.kind, one.place, one.time) for one in diagnose(found).causes],
                         [("small_regions", "image.c:20", 200 * MS)])
        found.starting_by = dict.fromkeys(by, 0.1)
        self.assertEqual(self.first(found), "machine")
        own.pieces = after.pieces = 30
        self.assertEqual(self.first(found), "machine")
        inner = place(AFTER_REGION + " at image.c:20", SHARE, cost=MS, pieces=30, tasks=0)
        self.assertEqual(self.first(delayed_at(inner)), "machine")

    def test_small_regions_without_times(self):
        run = facts([place(TASKS)], delayed=200 * MS, regions=[Region("image.c:20", 4, 90 * MS, times=9000)])
        self.assertEqual((self.first(run), diagnose(run).causes[0].place), ("small_regions", "image.c:20"))
        run.regions[0].times = 90
        self.assertEqual(self.first(run), "machine")

    def test_uneven_starts_of_small_regions(self):
        turns = place("turns of the loop at image.c:20", SHARE, cost=100 * MS, pieces=9000)
        run = facts([turns], starved=200 * MS, starved_by={turns.name: 200 * MS},
                    regions=[Region("image.c:20", 4, 90 * MS, times=3000)])
        self.assertEqual(self.first(run), "small_regions")
        run.regions = [Region("image.c:20", 4, 90 * MS, times=3)]
        self.assertEqual(self.first(run), "loop_schedule")
        after = place(AFTER_REGION + " at image.c:20", SERIAL, cost=200 * MS, pieces=3000, tasks=0)
        run = facts([after], starved=200 * MS, starved_by={after.name: 200 * MS},
                    regions=[Region("image.c:20", 4, 90 * MS, times=3000)])
        self.assertEqual(self.first(run), "serial")

    def test_small_chunks(self):
        turns = place("turns of the loop at image.c:20", SHARE, cost=400 * MS, pieces=4000)
        took = {turns.name: {("main", RUNTIME): 90000, ("main",): 30000}}
        found = facts([turns], chunks={"image.c:20": [3000000, 3000000]}, calls=Sampled(took, {}))
        self.assertEqual([(one.kind, one.time) for one in diagnose(found).causes], [("small_chunks", 300 * MS)])
        found.chunks = {"image.c:20": [3000, 3000000]}      # which do not explain it
        self.assertEqual(self.first(found), "efficient")

    def test_what_the_runtime_takes_for_locks_and_tasks(self):
        took = {TASKS: {("main", RUNTIME): 90000, ("main",): 30000}}
        found = facts([small()], code=396 * MS, at_locks=4 * MS, calls=Sampled(took, {}),
                      locks=[Held("image.c:27", "critical", 900000, 1, 4 * MS)])
        self.assertEqual([(one.kind, one.time // MS) for one in in_code_losses(found) if one.time], [("lock", 3)])
        found.locks = []
        self.assertEqual([one.kind for one in in_code_losses(found) if one.time], ["small_tasks"])
        own = place(OWN + " at image.c:20", OF_THREADS, pieces=4000, tasks=0)
        found = facts([own], calls=Sampled({own.name: took[TASKS]}, {}),
                      regions=[Region("image.c:20", 4, MS, times=1000)])
        self.assertEqual([(one.kind, one.time // MS) for one in in_code_losses(found) if one.time],
                         [("small_regions", 30)])

    def test_a_lock_inside_the_library(self):
        own = place(OWN + " at image.c:20", OF_THREADS, cost=320 * MS, pieces=4, longest=80 * MS)
        found = facts([own], code=320 * MS, preempted=80 * MS, preempted_by={own.name: 80 * MS},
                      calls=Sampled({own.name: {("main", "rand@libc.so.6"): 90000, ("main",): 30000}}, {}),
                      usage={"voluntary_switches": 900, "involuntary_switches": 100})
        set_library_locks(found)
        self.assertEqual((found.code, found.at_locks, found.preempted), (80 * MS, 294 * MS, 26 * MS))
        self.assertEqual(diagnose(found).causes[0].kind, "lock")
        own.longest = own.alone = 320 * MS
        found.at_locks, found.locks = 0, []
        set_library_locks(found)
        self.assertEqual(found.locks, [])

    def test_too_few_threads(self):
        found = facts([place(TASKS)], threads=2, asked=4, regions=[Region("image.c:20", 2, 90 * MS)])
        self.assertEqual(self.first(found), "too_few_threads")

    def test_too_many_threads(self):
        found = facts([place(TASKS)], threads=16, preempted=900 * MS,
                      regions=[Region("image.c:20", 4, MS), Region("image.c:30", 16, MS)])
        self.assertEqual(diagnose(found).causes[0].kind, "too_many_threads")
        self.assertEqual(diagnose(found).causes[0].place, "image.c:30")

    def test_many_threads_that_used_little_are_preempted_by_others(self):
        for used, kind in ((20 * MS, "machine"), (400 * MS, "too_many_threads")):
            found = facts([place(TASKS)], threads=16, preempted=900 * MS, others=900 * MS, usage={"user_ns": used},
                          regions=[Region("image.c:20", 16, 90 * MS)])
            self.assertEqual(self.first(found), kind)

    def test_nested_teams(self):
        found = facts([place(TASKS)], threads=16, delayed=900 * MS, delayed_by={TASKS: 900 * MS},
                      regions=[Region("image.c:20", 4, 90 * MS)], inner=[Region("image.c:30", 4, 80 * MS, times=90)])
        self.assertEqual([(one.kind, one.place) for one in diagnose(found).causes],
                         [("too_many_threads", "image.c:30")])

    def test_affinity(self):
        """The machine's processors were idle for longer than the threads waited for them."""
        shared = facts([place(TASKS)], preempted=200 * MS, others=20 * MS, regions=[Region("image.c:20", 4, 90 * MS)])
        self.assertEqual([(one.kind, one.place, one.time) for one in diagnose(shared).causes],
                         [("affinity", "image.c:20", 200 * MS)])
        self.assertEqual(self.first(delayed_at(place(TASKS), preempted=60 * MS, others=10 * MS)), "affinity")
        self.assertEqual(self.first(delayed_at(place(TASKS), preempted=60 * MS, others=50 * MS)), "machine")

    def test_machine(self):
        self.assertEqual(self.first(facts([place(TASKS)], preempted=200 * MS)), "machine")

    def test_efficient(self):
        self.assertEqual(self.first(facts([place(TASKS)], starved=10 * MS)), "efficient")

    def test_wait(self):
        """Only a change that was tried tells it: see test_diagnose.py."""
        self.assertFalse(BY_KIND["wait"].is_bound)


class Table(unittest.TestCase):
    def test_each_kind_has_a_test(self):
        for cause in TABLE:
            name = "test_" + cause.kind
            self.assertTrue(hasattr(Kinds, name), "%s has no function %s" % (__file__, name))

    def test_each_kind_is_in_the_manual(self):
        with open(MANUAL, encoding="utf-8") as file:
            text = file.read()
        for cause in TABLE:
            self.assertTrue("\n.B %s\n" % cause.kind in text, "%s has no `.B %s`" % (MANUAL, cause.kind))


if __name__ == "__main__":
    unittest.main()
