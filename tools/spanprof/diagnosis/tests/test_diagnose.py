import unittest
from collections import Counter
from types import SimpleNamespace

from spanprof.diagnosis.changes import Change, Tried, single
from spanprof.diagnosis.diagnose import diagnose, is_at_an_end, likely, predicted
from spanprof.diagnosis.losses import Loss
from spanprof.diagnosis.places import SERIAL, SHARE
from spanprof.diagnosis.tests.worked import MS, facts, place
from spanprof.whatif.requests import Request

TASKS, WAIT, BEGINS = "task at image.c:25", "taskwait at image.c:30", "the beginning"


class Bench:
    """Greedy ends by the requests that are made; a change that is not there cannot be made."""

    def __init__(self, ends, ordered=()):
        self.ends, self.seen = ends, SimpleNamespace(ordered=Counter(ordered), alone=Counter(), waits=Counter())

    def candidates(self):
        return [Change(requests) for requests in self.ends if len(requests) == 1 and requests]

    def end(self, requests):
        return self.ends[tuple(requests)]

    def has_time(self):
        return True

    def tries(self, found, before=()):
        keys = [(change, tuple(before) + change.requests) for change in found]
        return [Tried(change, self.ends[key]) for change, key in keys if key in self.ends]


def asked(option, word):
    return (Request(option, word),)


def idle(name, **more):
    one = place(name, **more)
    return facts([one], starved=200 * MS, starved_by={name: 200 * MS})


class Diagnoses(unittest.TestCase):
    def test_all_serial_code_is_one_cause(self):
        after = ["after the barrier of the region at a.c:%d" % i for i in range(8)]
        found = facts([place(name, SERIAL, tasks=0, pieces=1) for name in after], starved=120 * MS,
                      starved_by={name: 15 * MS for name in after})
        reported = diagnose(found)
        self.assertEqual([(loss.kind, loss.place, loss.time) for loss in reported.causes],
                         [("serial", after[0], 120 * MS)])

    def test_all_tasks_that_run_immediately_are_one_cause(self):
        some = [place(TASKS, undeferred=8), place("after creating a task at image.c:25", undeferred=8)]
        reported = diagnose(facts(some, starved=200 * MS, starved_by={one.name: 100 * MS for one in some}))
        self.assertEqual([(loss.kind, loss.time) for loss in reported.causes], [("undeferred", 200 * MS)])

    def test_a_needless_dependence_comes_before_a_split(self):
        found = idle(TASKS)
        found.places[TASKS].items[("inout", "a0")] = 8
        reported = diagnose(found, Bench({(): 90, asked("in-for-inout", "a0"): 50, asked("split", TASKS + "=4"): 48}))
        self.assertEqual([loss.kind for loss in reported.causes], ["dependence"])
        self.assertEqual((reported.plan[0].kind, reported.plan[0].place), ("dependence", TASKS))
        self.assertEqual(reported.plan[0].after, 100 * MS * 50 // 90)

    def test_what_is_lost_to_a_wait_is_of_that_kind(self):
        reported = diagnose(idle(TASKS), Bench({(): 90, asked("drop-wait", WAIT): 55}, ordered=[WAIT]))
        self.assertEqual(reported.causes, [Loss("wait", WAIT, 200 * MS)])

    def test_in_place_of_a_needless_barrier_another_schedule(self):
        loop = place("turns of the loop at a.c:3", SHARE, cost=200 * MS, uneven=200 * MS)
        found = facts([loop], delayed=200 * MS, delayed_by={loop.name: 200 * MS}, barriers={loop.name: (loop.name, 1)})
        self.assertEqual([(step.kind, step.is_instead) for step in diagnose(found, Bench({(): 90})).plan],
                         [("barrier", False), ("loop_schedule", True)])

    def test_a_wait_that_orders_tasks_is_mostly_needed(self):
        ends = {(): 90, asked("drop-wait", WAIT): 55, asked("split", TASKS + "=4"): 70}
        self.assertEqual(diagnose(idle(TASKS), Bench(ends)).plan[0].change.kind, "split")

    def test_nothing_is_promised_where_little_is_lost(self):
        found = facts([place(TASKS)], starved=10 * MS, starved_by={TASKS: 10 * MS})
        reported = diagnose(found, Bench({(): 100, asked("split", TASKS + "=4"): 96}))
        self.assertEqual(([loss.kind for loss in reported.causes], reported.plan), (["efficient"], []))

    def test_no_cause_of_an_efficient_program_brings_less_than_a_tenth(self):
        loop = place("turns of the loop at a.c:3", SHARE, cost=340 * MS, uneven=60 * MS)
        for lost, kind in ((36, "efficient"), (44, "loop_schedule"), (60, "loop_schedule")):
            found = facts([loop], delayed=lost * MS, delayed_by={loop.name: lost * MS})
            self.assertEqual([loss.kind for loss in diagnose(found).causes], [kind])

    def test_a_second_step_is_tried_on_top_of_the_first(self):
        one, two = asked("in-for-inout", "a0"), asked("split", BEGINS + "=4")
        found = idle(TASKS)
        found.places[TASKS].items[("inout", "a0")] = 8
        found.places[BEGINS] = place(BEGINS, SERIAL, cost=50 * MS, tasks=0)
        reported = diagnose(found, Bench({(): 90, one: 60, two: 70, one + two: 45}))
        self.assertEqual([step.kind for step in reported.plan], ["dependence", "serial"])
        self.assertEqual(reported.plan[1].before, reported.plan[0].after)

    def test_a_second_cause_is_reported_where_it_brings_a_tenth(self):
        found = facts([place(TASKS)], at_locks=120 * MS, asleep=80 * MS)
        self.assertEqual([loss.kind for loss in diagnose(found).causes], ["lock", "sleep"])
        found = facts([place(TASKS)], at_locks=120 * MS, asleep=20 * MS)
        self.assertEqual([loss.kind for loss in diagnose(found).causes], ["lock"])

    def test_a_second_cause_is_reported_where_more_is_lost_to_it_in_several_places(self):
        after = ["after the barrier of the region at a.c:%d" % i for i in range(8)]
        for each, kinds in ((15, ["lock", "serial"]), (7, ["lock"])):
            found = facts([place(name, SERIAL, tasks=0, pieces=1) for name in after], starved=8 * each * MS,
                          starved_by={name: each * MS for name in after}, at_locks=60 * MS)
            bench = Bench({(): 100, asked("split", after[0] + "=4"): 96})
            self.assertEqual([loss.kind for loss in diagnose(found, bench).causes], kinds)

    def test_a_busy_machine_does_not_hide_what_cost_more(self):
        found = facts([place(TASKS)], preempted=110 * MS, at_locks=130 * MS)
        self.assertEqual(diagnose(found).causes[0].kind, "lock")

    def test_on_a_busy_machine_what_the_program_lost_itself_is_reported_of_the_rest(self):
        found = facts([place(TASKS)], preempted=200 * MS, starved=120 * MS, starved_by={TASKS: 120 * MS})
        reported = diagnose(found, Bench({(): 90, asked("split", TASKS + "=4"): 45}))
        self.assertEqual([loss.kind for loss in reported.causes], ["too_few_tasks"])
        self.assertEqual((found.now, reported.best), (50 * MS, 20 * MS))
        self.assertEqual((found.lost_share(reported.causes[0]), reported.plan[0].before), (0.6, 50 * MS))

    def test_a_busy_machine_is_the_cause_where_the_program_lost_little_itself(self):
        found = facts([place(TASKS)], preempted=200 * MS, starved=8 * MS, starved_by={TASKS: 8 * MS})
        reported = diagnose(found, Bench({(): 90, asked("split", TASKS + "=4"): 80}))
        self.assertEqual((reported.causes, found.lost_share(reported.causes[0]), reported.plan), (
            [Loss("machine", "", 200 * MS), Loss("efficient", "", 8 * MS)], 0.5, []))

    def test_at_best_all_threads_run_its_code_all_the_time(self):
        self.assertEqual(diagnose(facts([place(TASKS)], starved=200 * MS)).best, 50 * MS)

    def test_the_programs_that_it_started_need_the_processors_too(self):
        run = facts([place(TASKS)], asleep=380 * MS, asleep_by={TASKS: 380 * MS}, children=300 * MS, asked=2)
        found = diagnose(run)
        self.assertEqual((found.best, found.steps[0].kind, found.steps[0].after), (80 * MS, "sleep", 80 * MS))

    def test_no_run_is_shorter_than_its_work_on_all_threads(self):
        reported = diagnose(idle(TASKS), Bench({(): 90, asked("split", TASKS + "=4"): 10}))
        self.assertEqual(reported.plan[0].after, 50 * MS)


class Steps(unittest.TestCase):
    def test_a_time_follows_the_greedy_end(self):
        self.assertEqual(predicted(120, 100, 50), 60)
        self.assertEqual(predicted(120, 0, 0), 120)

    def test_a_wait_that_some_turns_reach_is_likely_needless(self):
        change = single("drop-wait", "taskwait at a.c:9")
        seen = SimpleNamespace(ordered=Counter(), alone=Counter(), waits=Counter({"taskwait at a.c:9": 10}))
        self.assertEqual(likely(facts(), seen, change), 0.3)
        self.assertEqual(likely(facts(needless={"taskwait at a.c:9"}), seen, change), 0.9)
        seen.alone["taskwait at a.c:9"] = 9
        self.assertEqual(likely(facts(), seen, change), 0.9)

    def test_the_ends_of_a_program(self):
        begins = place(BEGINS, SERIAL)
        begins.ends["image.c:20"] = 1
        between, last = (place("after the barrier of the region at image.c:%d" % n, SERIAL) for n in (20, 40))
        between.ends["image.c:40"], last.ends[""] = 1, 1
        found = facts([begins, between, last])
        self.assertEqual([is_at_an_end(found, name) for name in found.places], [True, False, True])

    def test_a_change_has_a_kind_and_a_place(self):
        self.assertEqual((single("split", "a=4").kind, single("split", "a=4").place), ("split", "a"))
        self.assertEqual(single("defer", "a").place, "a")


if __name__ == "__main__":
    unittest.main()
