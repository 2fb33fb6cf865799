"""In tools/: python3 -m unittest discover -s spanprof/imports/tests -t ."""
import gzip
import json
import os
import unittest

from spanprof.command import Fault
from spanprof.imports.chrome import read
from spanprof.imports.tasks import in_order
from spanprof.report.exports import trace_text
from spanprof.report.tests import worked
from spanprof.tests.in_folder import InFolder

SLICES = [{"name": "a", "ph": "X", "pid": 1, "tid": 1, "ts": 0, "dur": 2.5},
          {"name": "b", "ph": "B", "pid": 1, "tid": "x", "ts": 3}, {"ph": "E", "pid": 1, "tid": "x", "ts": 5}]
FLOW = [{"name": "f", "cat": "c", "ph": "s", "id": 7, "pid": 1, "tid": 1, "ts": 1},
        {"name": "f", "cat": "c", "ph": "f", "id": "7", "bp": "e", "pid": 1, "tid": "x", "ts": 4}]


def span_of(tasks):
    ends = []
    for task in in_order(tasks):
        ends.append(task.cost + max((ends[first] for first in task.before), default=0))
    return max(ends)


class Chrome(InFolder):
    def trace(self, events, form="%s"):
        return self.write("t.json", form % ",\n".join(json.dumps(one) for one in events))

    def reported(self, events, form="[%s]", process=None):
        return [(one.name, one.begin, one.end, one.before) for one in read(self.trace(events, form), process).tasks]

    def test_slices_and_flows_in_each_form(self):
        for form in ("[%s]", "[%s", "[%s,\n", '{"displayTimeUnit": "ns", "traceEvents": [%s], "metadata": {}}'):
            self.assertEqual(self.reported(SLICES + FLOW, form), [("a", 0, 2500, []), ("b", 3000, 5000, [0])])

    def test_packed(self):
        path = os.path.join(self.folder, "t.json.gz")
        with gzip.open(path, "wt") as file:
            json.dump(SLICES + FLOW, file)
        self.assertEqual(len(read(path).tasks), 2)

    def test_a_flow_goes_on_at_each_step(self):
        third = {"name": "c", "ph": "X", "pid": 1, "tid": 3, "ts": 6, "dur": 1}
        step = dict(FLOW[1], ph="t")
        end = dict(FLOW[1], tid=3, ts=6)
        self.assertEqual([one[3] for one in self.reported(SLICES + [third, FLOW[0], step, end])], [[], [0], [1]])
        again = [dict(FLOW[0], ts=1.5), dict(FLOW[1], ts=6, tid=3)]     # the same number once more, in disorder
        self.assertEqual([one[3] for one in self.reported(SLICES + [third, FLOW[0], end])], [[], [], [0]])
        self.assertEqual([one[3] for one in self.reported(again + SLICES + [third])], [[], [], [0]])

    def test_other_events_are_passed_over(self):
        others = [{"ph": "M", "name": "thread_name"}, {"name": "no kind"}, {"ph": 7}, {"ph": ["s"]}]
        self.assertEqual(len(self.reported(others + SLICES)), 2)

    def test_other_names_are_other_flows(self):
        with self.assertRaisesRegex(Fault, "t.json:5: the flow 7 did not begin before"):
            self.reported(SLICES + [FLOW[0], dict(FLOW[1], name="g")])

    def test_a_few_wrong_flows_are_left_out_and_reported(self):
        events = SLICES + FLOW * 10 + [dict(FLOW[1], id=8, ts=4.5), dict(FLOW[1], tid=9)]
        for count in (1, 2):
            path = self.trace(events[:-1] if count == 1 else events, "[%s]")
            if count == 1:
                self.assertEqual(read(path).notes, [
                    "1 of 11 flows are left out, such as %s:24: the flow 8 did not begin before" % path])
            else:
                with self.assertRaisesRegex(Fault, "t.json:24: the flow 8 did not begin before"):
                    read(path)

    def test_one_process(self):
        other = {"name": "z", "ph": "X", "pid": 2, "tid": 1, "ts": 0, "dur": 9}
        self.assertEqual(len(self.reported(SLICES + [other], process="1")), 2)
        with self.assertRaisesRegex(Fault, "no slices .* of this process"):
            self.reported(SLICES, process="3")

    def test_what_clang_tells_besides(self):
        total = {"name": "Total a", "ph": "X", "pid": 1, "tid": 9, "ts": 0, "dur": 9, "args": {"count": 1, "avg ms": 9}}
        detail = dict(SLICES[0], args={"detail": "x.h"})
        self.assertEqual(self.reported([total, detail]), [("a x.h", 0, 2500, [])])

    def test_slices_without_a_begin_or_an_end_are_reported(self):
        notes = read(self.trace([SLICES[2], SLICES[0], SLICES[1]], "[%s]")).notes
        self.assertEqual(notes, ["2 slices without a begin or an end are left out",
                                 "without flows: the slices of a thread follow each other"])

    def test_faults_name_the_line(self):
        for events, form, words in (
                (SLICES, '{"x": [%s]}', "t.json:1: no array of events"),
                (SLICES, '[%s,\n{"name": ', "t.json:4: the event that begins here is damaged or cut off"),
                (SLICES, "[%s,\n17]", "t.json:4: no event, but 17"),
                ([], "[%s]", "t.json: no slices"),
                (SLICES[:1] + [dict(SLICES[0], ts=-1)], "[%s]", "t.json:2: the ts of this event is negative"),
                (SLICES[:1] + [dict(SLICES[0], dur="1")], "[%s]", "t.json:2: the dur of this event is no number"),
                (SLICES[:2] + [dict(SLICES[2], ts=1)], "[%s]", "t.json:3: b ends before it begins")):
            with self.assertRaisesRegex(Fault, words):
                self.reported(events, form)


class OwnTraces(InFolder):
    def test_work_and_span_are_those_of_the_text(self):
        """Without segments that cost nothing, which the trace does not show."""
        for name in ("mesh", "split", "plain", "odd"):
            view = worked.view(name)
            size = view.answers.head.nanoseconds or 1000
            tasks = read(self.write("t.json", trace_text(view)), "2").tasks
            reported = {what: view.answers.span_numbers[what] * size for what in ("work", "span")}
            self.assertEqual(sum(task.cost for task in tasks), reported["work"], name)
            if all(view.answers.rows.cost):
                self.assertEqual(span_of(tasks), reported["span"], name)


if __name__ == "__main__":
    unittest.main()
