"""Cases: a program in one variant, built, run under several conditions, and judged."""
import collections
import functools
import itertools
import shutil
import zlib
from dataclasses import dataclass, field, replace

from spanprof.conformance.emit.forms import is_of_regions
from spanprof.conformance.emit.tasks import c_text
from spanprof.conformance.generate.program import VARIANTS
from spanprof.conformance.generate.text_writer import text_of
from spanprof.conformance.judge.chunks import wrong_chunks
from spanprof.conformance.judge.coverage import Coverage, other_rules
from spanprof.conformance.judge.discarding import completed, may_discard, record_of, without_discarded
from spanprof.conformance.judge.exclusion import overlapping
from spanprof.conformance.judge.explain import explain
from spanprof.conformance.judge.segments import Table
from spanprof.conformance.judge.tied import moved, unconstrained
from spanprof.conformance.judge.verdicts import TOO_MANY, Expectations, Verdict
from spanprof.conformance.run.launch import Conditions, launch, without_harness
from spanprof.conformance.run.toolchain import BuildFailed

# Settings that programs take for the first of every two numbers of threads, by how their names begin.
FAVOURED = {"priority": "priorities", "cancel": "cancellable", "many": "priorities", "rounds": "interrupted",
            "pressure": "interrupted", "hurry": "hurried", "barrier": "trees", "region": "linear", "settings": "linear"}
# The same of LLVM's runtime, whose full queues grow in this setting alone.
FULL = {"pressure_throttled": "unthrottled", "pressure_queue": "unthrottled", "crowd": "unthrottled"}
# Programs so short that so many times as many runs take no longer than those of others: in the setting that they
# favour, in which logs are equal, and without delays.
HURRIED, TIMES_AS_MANY = "hurry", 10
MOST_SEED = 100_000  # of delays in the runtime, so that a person can write it


@dataclass(frozen=True)
class Case:
    """A program to be tested; `variant` says how its tasks are written: tied, untied or mixed."""
    name: str
    body: tuple
    variant: str
    unit: int  # what a cost of 1 lasts, in nanoseconds


def team_of(body, conditions):
    """How many threads the team has that runs a program: there is one outside of any region."""
    return 1 if conditions.setting == "orphaned" and not is_of_regions(body) else conditions.threads


@dataclass
class Failure:
    """A run that was not accepted, with all that is needed to see it again."""
    case: Case
    conditions: Conditions
    verdict: Verdict
    rule: str
    words: str
    log: object

    @property
    def signature(self):
        """Failures with one signature are taken for the same."""
        return self.case.variant, self.verdict.kind, self.rule


@dataclass
class Tally:
    """What came of the runs of a case under some conditions."""
    conditions: Conditions
    runs: int = 0
    events: int = 0
    failures: list = field(default_factory=list)
    schedules: collections.Counter = field(default_factory=collections.Counter)  # runs by the schedule's name
    coverage: collections.Counter = field(default_factory=collections.Counter)   # as Coverage.of_run
    seen_once: int = 0  # hangs that a second try did not show
    judged: int = 0     # logs about which spanprof was asked; the others equal one of these, or have no order
    expected: collections.Counter = field(default_factory=collections.Counter)   # failures by what is known of them


@dataclass(frozen=True)
class Plan:
    """Under which conditions cases are run: on each number of threads, in one of the settings."""
    threads: tuple
    runs: int
    seed: int
    timeout: int
    settings: tuple = ("free",)
    seeds: int = 0     # by so many the runtime is delayed
    perturb: str = ""  # what delays it, where that is given

    def conditions(self, case):
        """Those of `in_settings`, once for each seed of delays in the runtime."""
        return [replace(usual, perturb=perturb) for number, usual in enumerate(self.in_settings(case))
                for perturb in self.delays(case, number * self.seeds, usual.threads)]

    def delays(self, case, skipped, threads):
        """So many seeds, which differ from case to case; one thread alone takes the first."""
        if not self.seeds:
            return [self.perturb]
        first = zlib.crc32(f"{case.name} {case.variant} {self.seed}".encode()) % MOST_SEED + skipped
        return [str(first + seed + 1) for seed in range(self.seeds if threads > 1 else 1)]

    def in_settings(self, case):
        """The conditions for a case; which setting goes with which number of threads differs from case to case, and so
        from tied to untied tasks of one program."""
        has_text = case.variant in VARIANTS
        variant = list(VARIANTS).index(case.variant) if has_text else len(VARIANTS)
        usual = self.settings if has_text else without_harness(self.settings)
        first = zlib.crc32(case.name.encode()) + (self.seed + variant) * len(self.threads)
        settings = [usual[(first + number) % len(usual)] for number in range(len(self.threads))]
        favoured = next((setting for begin, setting in (*FULL.items(), *FAVOURED.items())
                         if case.name.startswith(begin) and setting in usual), "")
        if favoured:
            settings = [setting if (number + variant) % 2 else favoured for number, setting in enumerate(settings)]
        return [self.conditions_in(case, threads, setting) for threads, setting in zip(self.threads, settings)]

    def conditions_in(self, case, threads, setting):
        """Those of a case on a number of threads in a setting."""
        usual = Conditions(threads, self.runs, self.seed, case.unit, self.timeout, setting)
        hurried = case.name.startswith(HURRIED) and setting == FAVOURED[HURRIED] and threads > 1
        return replace(usual, runs=TIMES_AS_MANY * self.runs, seed=0) if hurried else usual


class Examined:
    """A case with all that its runs are judged by."""

    def __init__(self, case, judge):
        self.case, self.judge, self.text = case, judge, text_of(case.body)
        self.record = judge.record(self.text)
        self.table = Table(case.body)
        self.known, self.judged_logs = {}, 0

    @functools.cached_property
    def coverage(self):
        return Coverage(self.table)

    def source(self):
        return c_text(self.case.body, self.table, self.record.preds)

    def judged(self, log, constrained):
        """The verdict of spanprof, and on what it accepts whether tasks of taskloops had the turns that they should.
        Where the events have an order: whether tied tasks stayed on their threads, whether tasks that exclude one
        another ran one at a time and, where the runtime was not told otherwise, whether threads began tied tasks only
        where they may."""
        if "overflow" in log.events and may_discard(self.table):  # spanprof would miss the events of discarded tasks
            return TOO_MANY
        self.judged_logs += not log.unlogged
        verdict = self.judge.verdict(self.text, record_of(self.record, self.table, log), log)
        if not verdict.accepted:
            return verdict
        reported = {"chunks": wrong_chunks(self.table, log)}
        if not log.unlogged:
            search = functools.partial(overlapping, search=self.judge.search)
            tests = {"moved": moved, "overlapping": search}
            if constrained:
                tests["unconstrained"] = unconstrained
            reported.update((kind, test(self.table, without_discarded(log))) for kind, test in tests.items())
        return next((Verdict(kind, words) for kind, words in reported.items() if words), verdict)

    def verdict(self, log, conditions):
        """The verdict on a log, and what it tried. Equal logs get equal answers, so each is looked at once."""
        constrained = conditions.setting != "unconstrained"
        key = (conditions.threads, constrained, log.end, log.detail, log.unlogged, tuple(log.events),
               tuple(map(tuple, log.turns)), log.wrong)
        if key not in self.known:
            verdict = self.judged(log, constrained)
            ordered = verdict.accepted and not log.unlogged and not log.discarded
            tried = self.coverage.of_run(log.events, conditions.threads) if ordered else collections.Counter()
            if verdict.accepted and not log.unlogged and self.coverage.needs:
                tried += other_rules(self.table, log)
            self.known[key] = verdict, tried
        return self.known[key]


class Bench:
    """Where cases are built, run and judged."""

    def __init__(self, toolchain, judge, environment, expectations=Expectations("", ())):
        self.toolchain, self.judge, self.environment = toolchain, judge, environment
        self.expectations = expectations
        self.programs, self.numbers = {}, itertools.count()
        self.others = {}         # by the variant of a case: how it is tried, where it has no text
        self.sure_hangs = set()  # signatures of hangs that a second try has shown, in all batches of a campaign

    def build(self, source):
        """The program of a C file; the same file is built once."""
        if source not in self.programs:
            self.programs[source] = self.toolchain.build(source, f"p{next(self.numbers)}")
        return self.programs[source]

    def forget(self):
        """Removes all programs that were built, where they are not to be kept."""
        self.toolchain.forget(self.programs.values())
        self.programs.clear()

    def examined(self, case):
        return Examined(case, self.judge)

    def try_case(self, case, all_conditions):
        """A tally for each of the conditions."""
        if case.variant in self.others:
            return self.others[case.variant](self, case, all_conditions)
        examined = self.examined(case)
        try:
            program = self.build(examined.source())
        except BuildFailed as refused:
            verdict = Verdict("not built", str(refused))
            return [Tally(c, failures=[Failure(case, c, verdict, "not built", str(refused), None)])
                    for c in all_conditions]
        return [self.tally(examined, program, conditions) for conditions in all_conditions]

    def stacks_of(self, case, conditions):
        """The stacks of all threads in a run of a case that hangs, where a debugger is there and one hangs again."""
        if not shutil.which("gdb"):
            return []
        program = self.build(self.examined(case).source())
        logs = launch(program, conditions, {**self.environment, "CONFORMANCE_STACKS": "1"})
        return next((log.stacks for log in logs if log.stacks), [])

    def tally(self, examined, program, conditions):
        tally, before = Tally(conditions), examined.judged_logs
        for log in launch(program, conditions, self.environment):
            tally.runs += 1
            tally.events += len(log.events)
            tally.schedules[log.schedule] += 1
            log = completed(examined.table, log)
            verdict, tried = examined.verdict(log, conditions)
            tally.coverage.update(tried)
            if not verdict.accepted:
                reported = explain(examined.text, verdict, log, team_of(examined.case.body, conditions))
                tally.failures.append(Failure(examined.case, conditions, verdict, reported.rule, reported.words, log))
            if verdict.kind == "incomplete":  # what was left over may run in later runs
                break
        tally.judged = examined.judged_logs - before
        return self.expectations.settled(tally)
