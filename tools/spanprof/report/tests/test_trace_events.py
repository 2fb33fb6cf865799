"""Against what the JSON form of trace events requires, which ui.perfetto.dev and chrome://tracing read."""
import json
import unittest

from spanprof.report.exports import trace_text
from spanprof.report.tests import worked

REQUIRED = {"M": {"name", "ph", "pid", "args"}, "X": {"name", "cat", "ph", "ts", "dur", "pid", "tid"},
            "s": {"name", "cat", "ph", "ts", "pid", "tid", "id"},
            "f": {"name", "cat", "ph", "ts", "pid", "tid", "id", "bp"}}


def events_of(name):
    return json.loads(trace_text(worked.view(name)))["traceEvents"]


def of_kind(events, kind, process):
    return [event for event in events if event["ph"] == kind and event["pid"] == process]


class Form(unittest.TestCase):
    def setUp(self):
        self.events = events_of("split")

    def test_required_fields(self):
        for event in self.events:
            self.assertLessEqual(REQUIRED[event["ph"]], set(event))

    def test_threads_and_runs_have_names(self):
        names = [event["args"]["name"] for event in self.events if event["name"] == "process_name"]
        self.assertEqual(names, ["the run as it was", "the greedy schedule"])
        threads = [event["tid"] for event in self.events if event["name"] == "thread_name" and event["pid"] == 2]
        self.assertEqual(threads, [0, 1])

    def test_bars_of_a_thread_do_not_overlap(self):
        for process in (1, 2):
            bars = sorted(of_kind(self.events, "X", process), key=lambda bar: (bar["tid"], bar["ts"]))
            self.assertAlmostEqual(sum(bar["dur"] for bar in bars), {1: 40.73, 2: 37}[process])
            for a, b in zip(bars, bars[1:]):
                self.assertTrue(a["tid"] != b["tid"] or a["ts"] + a["dur"] <= b["ts"])

    def test_an_arrow_begins_and_ends_in_bars(self):
        for process in (1, 2):
            bars = of_kind(self.events, "X", process)
            begins = {flow["id"]: flow for flow in of_kind(self.events, "s", process)}
            ends = {flow["id"]: flow for flow in of_kind(self.events, "f", process)}
            self.assertTrue(begins)
            self.assertEqual(set(begins), set(ends))
            for flow in [*begins.values(), *ends.values()]:
                self.assertTrue(any(bar["tid"] == flow["tid"] and bar["ts"] <= flow["ts"] < bar["ts"] + bar["dur"]
                                    for bar in bars))
            self.assertTrue(all(begins[one]["ts"] <= ends[one]["ts"] for one in begins))

    def test_arrows_say_what_they_are(self):
        events = events_of("mesh")
        self.assertEqual({flow["name"] for flow in of_kind(events, "s", 2)}, {"creates", "depends", "waits", "goes on"})

    def test_numbers_of_arrows_are_of_one_run_each(self):
        numbers = [flow["id"] for flow in self.events if flow["ph"] == "s"]
        self.assertEqual(len(numbers), len(set(numbers)))


class Times(unittest.TestCase):
    def test_a_timed_run_is_in_true_microseconds(self):
        events = events_of("split")
        self.assertEqual(events[0]["args"]["name"], "the run as it was")
        first = of_kind(events, "X", 1)[0]
        self.assertAlmostEqual(first["ts"], 0.3)
        self.assertAlmostEqual(first["dur"], 4.41)

    def test_without_a_unit_a_cost_of_1_is_a_microsecond(self):
        self.assertEqual(of_kind(events_of("plain"), "X", 2)[0]["dur"], 5)

    def test_costs_in_any_unit_show_as_microseconds(self):
        self.assertEqual([bar["dur"] for bar in of_kind(events_of("odd"), "X", 2)], [5 * 0.25, 7 * 0.25])
        view = worked.view("plain")
        for unit, length in (("ns", 0.005), ("us", 5), ("ms", 5000)):
            view.answers.head.unit = unit
            bars = of_kind(json.loads(trace_text(view))["traceEvents"], "X", 2)
            self.assertEqual((bars[0]["ts"], bars[0]["dur"]), (0, length))
