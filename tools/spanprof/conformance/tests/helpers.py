"""What several tests need: programs, failures and a bench that runs nothing."""
import collections

from spanprof.conformance.generate.text_reader import read_program
from spanprof.conformance.judge.cases import Case, Failure, Plan, Tally
from spanprof.conformance.judge.verdicts import Verdict
from spanprof.conformance.run.launch import Conditions, Log

PLAN = Plan(threads=(2, 4), runs=3, seed=1, timeout=5, settings=("free",))


def body_of(text):
    return read_program("omptasks 2\n" + text)


def conditions(threads=2, setting="free"):
    return Conditions(threads, 3, 1, 1000, 5, setting)


def case_of(name="some", text="task { work 1 } taskwait", variant="tied"):
    return Case(name, body_of(text), variant, 1000)


def failure_of(case=None, threads=2, kind="refused", rule="taskwait", schedule="late"):
    log = Log(0, schedule, ["start 0 0"], "done", "7")
    return Failure(case or case_of(), conditions(threads), Verdict(kind, "event 0: NotReady 1"), rule, "words", log)


class StubBench:
    """Every program for which `fails` holds fails in its first run under each of the conditions."""

    def __init__(self, fails=lambda body: False):
        self.fails, self.tried, self.sure_hangs, self.programs = fails, [], set(), {}
        self.toolchain = self
        self.kinds = {"in", "out", "inout", "inoutset"}

    def try_case(self, case, all_conditions):
        self.tried.append(case)
        return [self.tally(case, at) for at in all_conditions]

    def tally(self, case, at):
        failures = [failure_of(case, at.threads)] if self.fails(case.body) else []
        return Tally(at, at.runs, 2 * at.runs, failures, collections.Counter(plain=at.runs),
                     collections.Counter({("taskwait", "taskwait", "held"): 1}))
