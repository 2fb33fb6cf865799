"""Where runs stood that did not come to their ends."""
import unittest

from spanprof.conformance.judge.explain import Standing, without_places
from spanprof.conformance.judge.segments import Table
from spanprof.conformance.tests.helpers import body_of


def standing(text, *segments, running=()):
    """Where a run stands that has finished some segments and begun others."""
    events = [f"{what} 0 {s}" for s in segments for what in ("start", "finish")] + [f"start 1 {s}" for s in running]
    return Standing(Table(body_of(text)), events)


def moved_on(events):
    """The events of a program before which a task of one segment stands, which has not begun."""
    words = [event.split() for event in events]
    later = [f"{what} {thread} {int(s) + 2 if int(s) else 0}" for what, thread, s in words]
    return later[:2] + ["start 0 2", "finish 0 2"] + later[2:]


class Places(unittest.TestCase):
    def test_the_construct_that_does_not_go_on(self):
        self.assertEqual(standing("task { } taskwait", 0, 1, 2).places(), "taskwait")
        self.assertEqual(standing("taskgroup { task { } }", 0, 1, 2).places(), "taskgroup")
        self.assertEqual(standing("taskgroup { #: taskyield\n}", 0).places(), "taskyield")
        self.assertEqual(standing("task if(0) { }", 0, 1).places(), "if(0)")

    def test_a_task_that_never_begins(self):
        self.assertEqual(standing("task { } taskwait", 0, 2).places(), "begin of a task")
        depends = "task depend(out: x) { } task depend(in: x) { } taskwait"
        self.assertEqual(standing(depends, 0, 1, 2, 4).places(), "begin of a task with depend")

    def test_a_task_with_mutexinoutset_that_is_left_over(self):
        text = "taskgroup { task { task depend(inoutset: x) { #: mutexinoutset\n } } }"
        left = "begin of a task with mutexinoutset whose parent has ended"
        self.assertEqual(standing(text, 0, 1, 3, 4).places(), left)
        self.assertEqual(standing(text, 0, 1, 4).places(), "after a task, begin of a task with depend")
        plain = text.replace("mutexinoutset", "")
        self.assertEqual(standing(plain, 0, 1, 3, 4).places(), "begin of a task with depend")

    def test_several_places(self):
        text = "task { task { } taskwait } taskgroup { task { } }"
        self.assertEqual(standing(text, 0, 1, 2, 3, 5, 6, 7).places(), "taskgroup, taskwait")

    def test_a_task_below_one_that_waits_for_it(self):
        # Segments: 0 the root, 1 and 4 the outer task, 2 and 3 the inner one; 5 the end of the outer one.
        text = "task { #: untied\n task { taskgroup { #: taskyield\n} } taskwait } taskwait"
        begun = ["start 1 1", "finish 1 1", "start 2 2", "finish 2 2"]

        def places(text, *events):
            return Standing(Table(body_of(text)), ["start 0 0", "finish 0 0", *begun, *events]).places()

        self.assertEqual(places(text, "start 2 4", "finish 2 4"), "taskyield below its waiter, after a task")
        self.assertEqual(places(text, "start 1 4", "finish 1 4"), "after a task, taskyield")
        self.assertEqual(places(text.replace("#: untied", ""), "start 2 4", "finish 2 4"), "after a task, taskyield")

    def test_the_child_of_detach_that_no_thread_waits_for(self):
        # Segments: 0, 7 and 8 the root; 1, 5 and 6 the outer task; 2 and 4 the one with detach; 3 its child.
        text = "task { task { #: detach\n task if(0) { } } taskwait } taskwait"
        events = [f"{what} {run}" for run in ("0 0", "1 1", "0 7", "1 5", "1 2") for what in ("start", "finish")]

        def place(threads, text=text, events=events):
            return Standing(Table(body_of(text)), events, threads).places()

        self.assertEqual(place(2), "begin of the child of detach that no thread waits for")
        self.assertEqual(place(2, text.replace("task {", "task { #: untied\n", 1)), place(2))
        for threads in (0, 3):  # it is not known whether a thread is free, or one is
            self.assertEqual(place(threads), "begin of the child of detach")
        at_barrier = text.removesuffix(" taskwait")
        self.assertEqual(place(2, at_barrier), "begin of the child of detach")
        # Thread 0 waits for another task too, which could begin: it should have run that.
        other = "task { } " + text
        self.assertEqual(place(2, other, [event.replace(" 0 7", " 0 9") for event in moved_on(events)]),
                         "begin of a task, begin of the child of detach")

    def test_the_same_where_the_threads_are_not_known(self):
        text = "task { task { #: detach\n task if(0) { } } taskwait } taskwait"
        events = [f"{what} 0 {s}" for s in (0, 1, 2, 5, 7) for what in ("start", "finish")]

        def place(threads, text=text, unlogged=True):
            return Standing(Table(body_of(text)), events, threads, unlogged).places()

        self.assertEqual(place(2), "begin of the child of detach that no thread waits for")
        for threads in (0, 3):
            self.assertEqual(place(threads), "begin of the child of detach")
        self.assertEqual(place(2, text.removesuffix(" taskwait")), "begin of the child of detach")
        self.assertEqual(place(2, unlogged=False), "begin of the child of detach")

    def test_the_child_of_detach_in_a_group(self):
        # Thread 0 is at the end of the group, thread 1 at the taskwait of the task that created the one with detach.
        text = "taskgroup { task { task { #: detach\n task if(0) { } } taskwait } }"

        def place(threads, text=text, unlogged=False):
            table = Table(body_of(text))
            root, outer, detached = (task.segments for task in table.tasks[:3])
            runs = [(0, s) for s in root[:2]] + [(1, s) for s in (*outer[:2], detached[0])]
            events = [f"{what} {thread} {s}" for thread, s in runs for what in ("start", "finish")]
            return Standing(table, events, threads, unlogged).places()

        for unlogged in (False, True):
            self.assertEqual(place(2, unlogged=unlogged), "begin of the child of detach in a group whose end waits")
            for threads in (0, 3):
                self.assertEqual(place(threads, unlogged=unlogged), "begin of the child of detach")
        # Thread 0 is at the barrier.
        self.assertEqual(place(2, "task { task { #: detach\n task if(0) { } } taskwait }"),
                         "begin of the child of detach")

    def test_without_anything_ready(self):
        self.assertEqual(standing("work 1", 0).places(), "end of the region")
        self.assertEqual(standing("work 1", running=[0]).places(), "inside a segment")
        self.assertEqual(standing("for i 1 600 { task { } }").places(), "somewhere")


class Complaints(unittest.TestCase):
    def test_paths_and_numbers_are_left_out(self):
        reported = "signal 6: Assertion failure at kmp_tasking.cpp(1738): taskdata->td_last_tied."
        self.assertEqual(without_places(reported),
                         "signal 6: Assertion failure at kmp_tasking.cpp(N): taskdata->td_last_tied.")
        self.assertEqual(without_places("status 127: /tmp/a-1/p3: symbol lookup error: 0x7f12"),
                         "status 127: p3: symbol lookup error: N")

    def test_what_has_none_stays(self):
        self.assertEqual(without_places("signal 11"), "signal 11")
        self.assertEqual(without_places("status 1: n/a or so"), "status 1: a or so")


if __name__ == "__main__":
    unittest.main()
