import random
import unittest

from spanprof.diagnosis.calls import Sampled
from spanprof.diagnosis.facts import Region
from spanprof.diagnosis.losses import (Loss, by_place, code_on_one, divided, finest_name, handling, is_crowded,
                                       losses, missing_threads, starting_times)
from spanprof.diagnosis.places import OF_THREADS, OWN, SERIAL, SHARE, TASK
from spanprof.diagnosis.tests.worked import MS, facts, place

PARTS = ("recorder", "preempted", "asleep", "at_locks", "delayed", "starved", "outside")


class Losses(unittest.TestCase):
    def test_a_total_is_divided_without_a_rest(self):
        self.assertEqual(divided(10, {"a": 1, "b": 1, "c": 1}), {"a": 3, "b": 3, "c": 4})
        self.assertEqual(by_place("lock", 7, {}), [Loss("lock", "", 7)])

    def test_they_add_up_with_the_code_on_one_thread(self):
        chance = random.Random(7)
        for _ in range(200):
            found = facts([place("task at a.c:1", cost=90 * MS), place("the beginning", SERIAL, tasks=0)],
                          threads=chance.choice((2, 4, 16)), asked=chance.choice((None, 4)),
                          regions=[Region("a.c:2", 2, 50 * MS)],
                          cost_on_one=chance.choice((None, {"task at a.c:1": 80 * MS})),
                          usage={"user_ns": 9, "system_ns": chance.randrange(90 * MS), "minor_faults": 9000},
                          **{part: chance.randrange(25 * MS) for part in PARTS})
            self.assertEqual(sum(loss.time for loss in losses(found)) + code_on_one(found, losses(found)),
                             found.target * found.elapsed)
            self.assertTrue(all(loss.time > 0 for loss in losses(found)))
            self.assertGreaterEqual(code_on_one(found, losses(found)), 0)

    def test_a_small_team_loses_the_others_though_its_loop_has_more_to_run(self):
        turns = "turns of the loop at a.c:3"
        found = losses(facts([place(turns, SHARE, uneven=150 * MS)], regions=[Region("a.c:2", 2, 90 * MS)],
                             delayed=150 * MS, delayed_by={turns: 150 * MS}, starved=50 * MS,
                             starved_by={turns: 50 * MS}))
        lost = {kind: sum(loss.time for loss in found if loss.kind == kind) for kind in ("too_few_threads",
                                                                                         "loop_schedule")}
        self.assertEqual(lost, {"too_few_threads": 180 * MS, "loop_schedule": 20 * MS})

    def test_what_waits_for_a_region_that_got_one_thread_is_lost_to_that(self):
        name = "code of one of the region's threads at a.c:2"
        found = facts([place(name, OF_THREADS, alone=9, longest=9)], starved=200 * MS, starved_by={name: 200 * MS},
                      denied={"a.c:9": 180 * MS})
        self.assertEqual(losses(found), [Loss("too_few_threads", "a.c:9", 180 * MS), Loss("serial", name, 20 * MS)])

    def test_short_code_between_two_creations_is_the_runtimes(self):
        small = place("task at a.c:1", pieces=50000, tasks=50000)
        for each, lost in ((400, 20 * MS), (2000, 0)):
            maker = place("after creating a task at a.c:1", cost=50000 * each, pieces=50000, tasks=0)
            self.assertEqual(handling(facts([small, maker])), {("small_tasks", small.name): lost} if lost else {})

    def test_long_delays_of_starting_regions_are_others_as_far_as_these_ran(self):
        """Of 100 ms a runtime takes 40; of the other 60 other programs ran for 15."""
        often, seldom = (place("%s at a.c:%d" % (OWN, line), OF_THREADS, pieces=pieces) for line, pieces in
                         ((2, 4000), (9, 4)))
        delayed = {often.name: 100 * MS, seldom.name: 50 * MS}
        for others, starting in ((15 * MS, 85 * MS), (0, 100 * MS), (90 * MS, 40 * MS), (None, 40 * MS)):
            run = facts([often, seldom], starting_by={name: 0.4 for name in delayed}, others=others)
            self.assertEqual(starting_times(run, delayed), {often.name: starting, seldom.name: 0})

    def test_threads_that_share_processors_lose_much(self):
        name = "task at a.c:1"
        for delayed, threads, crowded in ((200, 16, True), (200, 4, False), (10, 16, False)):
            run = facts([place(name)], threads=threads, elapsed=400 // threads * MS, delayed=delayed * MS,
                        delayed_by={name: delayed * MS}, preempted=10 * MS)
            self.assertEqual(is_crowded(run), crowded)

    def test_tasks_are_too_small_where_most_of_them_are_made(self):
        large, small = place("task at a.c:1", cost=80 * MS, tasks=8), place("task at a.c:9", cost=9 * MS, tasks=9000)
        self.assertEqual(finest_name(facts([large, small])), "task at a.c:9")

    def test_a_team_of_as_many_as_were_asked_for_lacks_none(self):
        team = [Region("a.c:2", 2, 90 * MS)]
        self.assertEqual(missing_threads(facts([], threads=3, asked=2, regions=team)), {})
        self.assertEqual(missing_threads(facts([], threads=3, asked=3, regions=team)), {"a.c:2": 90 * MS})

    def test_a_team_lacks_no_threads_that_regions_inside_it_have(self):
        for added, missing in ((0, 180), (70, 110), (180, 0), (200, 0)):
            team = [Region("a.c:2", 2, 90 * MS, added=added * MS)]
            self.assertEqual(missing_threads(facts([], regions=team)), {"a.c:2": missing * MS} if missing else {})

    def test_of_several_teams_the_small_ones_lack_threads(self):
        team = [Region("a.c:2", 4, 90 * MS, teams={4: 40 * MS, 2: 30 * MS, 1: 20 * MS})]
        self.assertEqual(missing_threads(facts([], regions=team)), {"a.c:2": (2 * 30 + 3 * 20) * MS})

    def test_a_part_of_the_beginning_starts_the_program(self):
        begins = place("the beginning", SERIAL, cost=20 * MS, pieces=1, tasks=0)
        found = losses(facts([begins], starved=60 * MS, starved_by={begins.name: 60 * MS}))
        self.assertEqual(found, [Loss("serial", begins.name, 45 * MS), Loss("startup", "", 15 * MS)])

    def test_what_no_sample_has_seen_of_the_beginning_loads_the_program(self):
        begins = place("the beginning", SERIAL, cost=80 * MS, pieces=1, tasks=0)
        run = {"starved": 240 * MS, "starved_by": {begins.name: 240 * MS}}
        for seen, start in ((12000, 180), (40000, 96), (78000, 15)):
            found = losses(facts([begins], calls=Sampled({begins.name: {("main",): seen}}, {}), **run))
            self.assertEqual(sum(loss.time for loss in found if loss.kind == "startup"), start * MS)

    def test_who_waits_for_preempted_code_waits_for_the_machine(self):
        for name, kind in (("task at a.c:1", TASK), ("the beginning", SERIAL), ("turns of the loop at a.c:3", SHARE)):
            one = place(name, kind, cost=20 * MS)       # on the processor, of the 80 ms that it lasted
            found = facts([one], preempted=60 * MS, preempted_by={name: 60 * MS}, starved=40 * MS,
                          starved_by={name: 40 * MS}, starved_off={name: 30 * MS}, delayed=80 * MS,
                          delayed_by={name: 80 * MS})
            machine = sum(loss.time for loss in losses(found) if loss.kind == "machine")
            self.assertGreaterEqual(machine, (60 + 30 + 60) * MS)
            self.assertEqual(sum(loss.time for loss in losses(found)) + code_on_one(found, losses(found)),
                             found.whole_time)

    def test_who_has_nothing_to_run_while_code_sleeps_waits_for_what_it_sleeps_for(self):
        one = place("after the region at a.c:9", SERIAL, cost=80 * MS, tasks=0)     # of these it sleeps 60
        found = losses(facts([one], asleep=60 * MS, asleep_by={one.name: 60 * MS}, starved=120 * MS,
                             starved_by={one.name: 120 * MS}))
        by_kind = {kind: sum(loss.time for loss in found if loss.kind == kind) for kind in ("sleep", "serial")}
        self.assertEqual(by_kind, {"sleep": (60 + 90) * MS, "serial": 30 * MS})

    def test_who_waits_without_a_processor_waits_for_the_machine_as_code_does(self):
        usage = {"user_ns": 50 * MS, "system_ns": 30 * MS}
        run = {"code": 80 * MS, "delayed": 100 * MS, "at_locks": 100 * MS, "usage": usage}     # none is left for these
        for preempted, lock in ((80, 50), (20, 80), (0, 100)):
            found = losses(facts([place("task at a.c:1")], preempted=preempted * MS, **run))
            self.assertEqual(sum(loss.time for loss in found if loss.kind == "lock"), lock * MS)

    def test_pages_that_are_taken_again_are_a_loss_and_those_that_are_taken_once_are_not(self):
        def lost(pages, asleep=0):
            usage = {"user_ns": 350 * MS, "system_ns": 50 * MS, "minor_faults": 12000, "peak_bytes": 4096 * pages}
            found = facts([place("task at a.c:1")], usage=usage, asleep=asleep, asleep_by={"task at a.c:1": asleep},
                          calls=Sampled({"task at a.c:1": {("main",): 9}}, {}))
            return sum(loss.time for loss in losses(found) if loss.kind == "system")
        self.assertEqual((lost(12000), lost(2000)), (0, 40 * MS))
        self.assertEqual(lost(2000, asleep=30 * MS), 70 * MS)   # while others change what memory there is

    def test_code_of_several_threads_is_shared_out_unevenly(self):
        parts = place("code of one of the region's threads", OF_THREADS, cost=40 * MS, pieces=4, tasks=4,
                      uneven=60 * MS)
        found = losses(facts([parts], starved=60 * MS, starved_by={parts.name: 60 * MS}))
        self.assertEqual(found[0].kind, "loop_schedule")


if __name__ == "__main__":
    unittest.main()
