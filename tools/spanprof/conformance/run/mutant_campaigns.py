"""Campaigns on runtimes that were built from changed sources: what `run` tries, in its order, until a program fails.
Each program is built, and what it is judged by worked out, once for all of them.

checks/programs/mutants/build.py leaves a folder of libraries, each with one change, and `mutants.json` that says what
each change breaks.
"""
import collections
import concurrent.futures
import copy
import functools
import json
import pathlib
import time
from dataclasses import asdict, dataclass

from spanprof.conformance.judge.cases import Bench, Examined
from spanprof.conformance.run.campaign import SecondTries
from spanprof.conformance.run.perturb import before_others


@dataclass(frozen=True)
class Built:
    """`breaks` is `yes`, or `no` and why."""
    name: str
    words: str
    rule: str
    breaks: str
    library: pathlib.Path

    @property
    def is_wrong(self):
        return self.breaks == "yes"

    def environment(self, plain):
        """An environment in which programs load this library in place of the runtime."""
        return before_others(self.library, plain)


def built_in(folder):
    """The runtime as it is, if it is there, and the mutants of a folder by rule and name."""
    folder = pathlib.Path(folder).resolve()
    described = json.loads((folder / "mutants.json").read_text())
    mutants = [Built(name, *(fields[key] for key in ("words", "rule", "breaks")), folder / f"{name}.so")
               for name, fields in described.items()]
    plain = [Built("none", "nothing", "", "no", folder / "none.so")]
    return [one for one in plain + sorted(mutants, key=lambda m: (m.rule, m.name)) if one.library.exists()]


class SparingExamined(Examined):
    """The same without a count of what the runs tried, and without verdicts that are kept."""

    @functools.cached_property
    def written(self):
        return super().source()

    def source(self):
        return self.written

    def verdict(self, log, conditions):
        return self.judged(log, conditions.setting != "unconstrained"), collections.Counter()


class SparingBench(Bench):
    """Made of another bench. `known` has what is known of each case, whatever the runtime."""

    def __init__(self, bench):
        super().__init__(bench.toolchain, bench.judge, bench.environment, bench.expectations)
        self.known, self.others = {}, bench.others

    def in_environment(self, environment):
        """A bench for another runtime, with the same programs."""
        other = copy.copy(self)
        other.environment = environment
        return other

    def examined(self, case):
        if case not in self.known:
            self.known[case] = SparingExamined(case, self.judge)
        return self.known[case]

    def first_failure(self, case, all_conditions):
        """The first failure of a case that counts, under any of the conditions; or None."""
        tries = SecondTries(lambda case, conditions: self.try_case(case, [conditions])[0], set())
        for conditions in all_conditions:
            tally = tries.settled_tally(case, self.try_case(case, [conditions])[0])
            if tally.failures:
                return tally.failures[0]
        return None


@dataclass
class Campaign:
    """What a campaign saw: the program that failed, if one did, where and how, and how many cases were tried."""
    program: str = ""
    tasks: str = ""
    threads: int = 0
    setting: str = ""
    how: str = ""
    tried: int = 0
    seconds: float = 0

    def see(self, failure):
        self.program, self.tasks = failure.case.name, failure.case.variant
        self.threads, self.setting = failure.conditions.threads, failure.conditions.setting
        self.how = f"hung: {failure.rule}" if failure.verdict.kind == "hung" else failure.rule


def campaign_on(bench, cases, plan, seconds):
    """A campaign on the bench's runtime, which ends once a program has failed, or after so many seconds."""
    begun, found = time.monotonic(), Campaign()
    for case in cases:
        if found.program or time.monotonic() - begun > seconds:
            break
        failure = bench.first_failure(case, plan.conditions(case))
        found.tried += 1
        if failure:
            found.see(failure)
    found.seconds = time.monotonic() - begun
    return found


class Campaigns:
    """A campaign on each of the mutants, several of which are tried side by side. `kept` has those of an earlier
    process, and `keep` is called with each one that ends."""

    def __init__(self, bench, cases, options, plan, kept=(), keep=lambda name, campaign: None):
        self.bench, self.cases, self.options, self.plan, self.keep = bench, cases, options, plan, keep
        self.kept = {name: Campaign(**fields) for name, fields in kept}

    def run(self, mutants):
        """Each of the mutants with what was seen of it."""
        yield from ((mutant, self.kept[mutant.name]) for mutant in mutants if mutant.name in self.kept)
        plain, pool = self.bench.environment, concurrent.futures.ThreadPoolExecutor(self.options.jobs)
        try:
            running = {pool.submit(campaign_on, self.bench.in_environment(mutant.environment(plain)), self.cases,
                                   self.plan, self.options.seconds): mutant
                       for mutant in mutants if mutant.name not in self.kept}
            for future in concurrent.futures.as_completed(running):
                mutant, found = running[future], future.result()
                self.keep(mutant.name, asdict(found))
                yield mutant, found
        finally:
            pool.shutdown(cancel_futures=True)
