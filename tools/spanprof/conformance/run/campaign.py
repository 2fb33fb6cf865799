"""Runs many cases side by side, shows a terminal how far it is, and keeps the state of a test.

The same command goes on from that where it was stopped: a file named for what is tested, with a line of JSON for each
program that was tried. A last line that was cut short, since the process was ended, is taken away. The file goes once
the whole report is there.

Hangs may be those of a busy machine: such programs are run again, alone and with more time, before they count. A run in
which each thread slept all the time hangs for sure. One in which a thread was busy may only have been slow.
"""
import concurrent.futures
import fcntl
import fnmatch
import hashlib
import json
import math
import os
import pathlib
import random
import sys
import time
from dataclasses import dataclass, replace

from spanprof.command import Fault
from spanprof.conformance.generate.directed import directed_programs, kinds_of
from spanprof.conformance.generate.program import in_variant
from spanprof.conformance.generate.random_programs import random_program
from spanprof.conformance.judge.cases import Case, Tally
from spanprof.conformance.report.results import Results
from spanprof.conformance.run import self_checking

BEGUN = time.monotonic()
MINUTE, HALF_A_MINUTE, SOON = 60, 30, 5
TO_LINE_END = "\033[K"  # clears what is left of a longer line
PATIENCE = 5  # times as long as the first time
KINDS_IN_ORDER = {self_checking.VARIANT: 0, "tied": 1}
MOST_BUILT = 400  # programs that are there at once
TICK = 5  # seconds after which progress is reported though no case has ended
DIRECTED_UNIT, RANDOM_UNIT = 100_000, 1_000  # nanoseconds for a cost of 1


@dataclass(frozen=True)
class Took:
    """Seconds: by the wall clock, of the tester's own processor time, and of that of all that it started."""
    wall: float
    tester: float
    started: float

    def reported(self):
        return f"Took {self.wall:.0f} s, and {self.tester + self.started:.0f} s of processor time: " \
               f"{self.started:.0f} s of compilers, programs and spanprof, {self.tester:.0f} s of the tester."


def taken():
    """What the process took so far, with those of its children that have ended."""
    user, system, *of_children, _ = os.times()
    return Took(time.monotonic() - BEGUN, user + system, sum(of_children))


def say(words, end="\n"):
    """Words on standard error, where that is a terminal."""
    if sys.stderr.isatty():
        print(words, end=end, file=sys.stderr, flush=True)


def rough(seconds):
    """A time in words."""
    return f"{seconds:.0f} s" if seconds < 2 * MINUTE else f"{seconds / MINUTE:.0f} min"


class Progress:
    """How many cases are done, and about how long the others take if they are like these: a line of a terminal that
    changes, or a line of a log soon and then each half minute. Each new kind of failure has a line of its own."""

    def __init__(self, cases):
        self.cases, self.done, self.failed = cases, 0, 0
        self.begun = time.perf_counter()
        self.next, self.kinds = self.begun + SOON, set()

    def add(self, tallies):
        self.done += 1
        self.add_failures(tallies)
        self.show(self.done == self.cases)

    def add_failures(self, tallies):
        failures = [failure for tally in tallies for failure in tally.failures]
        self.failed += bool(failures)
        for failure in failures:
            self.report(failure)

    def tick(self):
        """No case has ended, perhaps for long."""
        if not sys.stderr.isatty():
            self.show(False)

    def show(self, is_last):
        left = "" if is_last or not self.done else f", about {rough(self.seconds_left())} left"
        words = f"{self.done} of {self.cases} cases, {self.failed} with failures{left}"
        if sys.stderr.isatty():
            say(f"\r{words}{TO_LINE_END}", "\n" if is_last else "")
            return
        at = time.perf_counter()
        if is_last or at >= self.next:
            self.next = at + HALF_A_MINUTE
            print(words, file=sys.stderr, flush=True)

    def report(self, failure):
        """The first failure of its kind, on a line of its own."""
        if failure.signature in self.kinds:
            return
        self.kinds.add(failure.signature)
        begin, at = "\r" if sys.stderr.isatty() else "", failure.conditions
        delays = f", with delays in the runtime by seed {at.perturb}" if at.perturb else ""
        print(f"{begin}failed: {failure.case.name} ({failure.case.variant}) on {at.threads} threads: "
              f"{failure.verdict.kind}: {failure.rule}{delays}{TO_LINE_END * bool(begin)}", file=sys.stderr, flush=True)

    def seconds_left(self):
        return (time.perf_counter() - self.begun) * (self.cases - self.done) / self.done


class OtherCampaign(Fault):
    """Another process has the file."""


def path_of(tested, folder):
    """The file for a test of this in a folder."""
    digest = hashlib.sha256(json.dumps(tested, sort_keys=True).encode()).hexdigest()
    return pathlib.Path(folder) / f"conformance-{digest[:12]}.jsonl"


class Journal:
    """`lines` has what an earlier process has kept of a test of the same."""

    def __init__(self, tested, folder="."):
        self.path = path_of(tested, folder)
        self.file = open(self.path, "ab")
        try:
            fcntl.flock(self.file, fcntl.LOCK_EX | fcntl.LOCK_NB)
        except BlockingIOError:
            self.file.close()
            raise OtherCampaign(f"{self.path}: another process makes the same test") from None
        text = self.path.read_bytes()
        size = text.rfind(b"\n") + 1
        self.file.truncate(size)
        self.lines = [json.loads(line) for line in text[:size].splitlines()]

    def add(self, line):
        """Keeps what came of a program."""
        self.file.write(json.dumps(line).encode() + b"\n")
        self.file.flush()

    def close(self, is_whole=False):
        if is_whole:
            self.path.unlink()
        self.file.close()


def is_doubtful(failure):
    return failure.verdict.kind == "hung" and failure.verdict.detail != "asleep"


def doubtful(tallies):
    """Whether any of the tallies has such a hang."""
    return any(is_doubtful(failure) for tally in tallies for failure in tally.failures)


class SecondTries:
    """`again` answers a case's tally under some conditions, with nothing else running. `sure` has the signatures of
    hangs that were seen again: others like them count without being tried."""

    def __init__(self, again, sure):
        self.again, self.sure = again, sure

    def settled(self, case, tallies):
        """The tallies, in which each hang counts or is reported as seen once."""
        return [self.settled_tally(case, tally) for tally in tallies]

    def settled_tally(self, case, tally):
        hangs = [failure for failure in tally.failures if is_doubtful(failure)]
        if all(self.is_sure(case, failure) for failure in hangs):
            return tally
        kept = [failure for failure in tally.failures if failure not in hangs]
        return replace(tally, failures=kept, seen_once=tally.seen_once + len(hangs))

    def is_sure(self, case, failure):
        if failure.signature in self.sure:
            return True
        patient = replace(failure.conditions, timeout=failure.conditions.timeout * PATIENCE)
        if any(other.verdict.kind == "hung" for other in self.again(case, patient).failures):
            self.sure.add(failure.signature)
        return failure.signature in self.sure


def cases_of(name, body, variants, unit):
    """A program's cases: one for each variant that differs."""
    bodies = {in_variant(body, variant): variant for variant in reversed(variants)}
    return [Case(name, written, variant, unit) for written, variant in reversed(bodies.items())]


def directed_cases(kinds, variants, pattern="*"):
    """The cases of the directed part, of programs whose names fit a pattern of the shell's, and the names of those that
    need a kind that the compiler lacks."""
    programs = [(name, body) for name, body in directed_programs() if fnmatch.fnmatchcase(name, pattern)]
    cases = [case for name, body in programs if kinds_of(body) <= kinds
             for case in cases_of(name, body, variants, DIRECTED_UNIT)]
    return cases, [name for name, body in programs if not kinds_of(body) <= kinds]


def random_cases(seeds, kinds, variants):
    """Cases of random programs. Each is named for its shape and the seed that makes it."""
    for seed in seeds:
        shape, body = random_program(seed, kinds)
        yield from cases_of(f"{shape}-{seed}", body, variants, RANDOM_UNIT)


def spread(cases):
    """The cases in another order, always the same one. What takes long, or hangs until its time is over, stands side by
    side in the directed part; here it stands far apart."""
    return random.Random(len(cases)).sample(cases, len(cases))


def telling_first(cases):
    """The cases where only the first may be tried: programs that take little, then tied tasks, then the others."""
    return sorted(spread(cases), key=lambda case: KINDS_IN_ORDER.get(case.variant, len(KINDS_IN_ORDER)))


class Running:
    """Cases that are tried side by side on a bench, in their order, as long as there is time; `tick` is called now and
    then."""

    def __init__(self, bench, plan, jobs, seconds, tick):
        self.bench, self.plan, self.jobs, self.over, self.tick = bench, plan, jobs, time.monotonic() + seconds, tick
        self.pool, self.running = concurrent.futures.ThreadPoolExecutor(jobs), {}

    def is_over(self):
        return time.monotonic() > self.over

    def in_time(self, all_conditions):
        """The first of some conditions, and others as long as there is time."""
        for number, conditions in enumerate(all_conditions):
            if number == 0 or not self.is_over():
                yield conditions

    def begin(self, cases):
        """Begins as many as may run; programs that were built are forgotten now and then, when none runs."""
        if len(self.bench.programs) >= MOST_BUILT and self.running:
            return
        if len(self.bench.programs) >= MOST_BUILT:
            self.bench.forget()
        while len(self.running) < self.jobs and not self.is_over():
            case = next(cases, None)
            if case is None:
                return
            self.running[self.pool.submit(self.bench.try_case, case, self.in_time(self.plan.conditions(case)))] = case

    def outcomes(self, cases):
        """Each case with its tallies, as it ends."""
        try:
            self.begin(cases)
            while self.running:
                done, _ = concurrent.futures.wait(self.running, TICK, return_when=concurrent.futures.FIRST_COMPLETED)
                self.tick()
                for future in done:
                    yield self.running.pop(future), future.result()
                self.begin(cases)
        finally:
            self.pool.shutdown(cancel_futures=True)


def tried(bench, cases, plan, jobs, seconds=math.inf, count=0):
    """Each of the cases, which are so many, with its tallies, as it ends; each is run as the plan says. What may only
    have been slow comes last, after a second try. After so many seconds no case is begun, and of the hangs the first
    alone is tried again: a runtime that hangs everywhere leaves no time for more."""
    progress, slow, again = Progress(count), [], []
    running = Running(bench, plan, jobs, seconds, progress.tick)
    for case, tallies in running.outcomes(iter(cases)):
        is_slow = doubtful(tallies)
        progress.add([] if is_slow else tallies)
        if is_slow:
            slow.append((case, tallies))
        else:
            yield case, tallies

    def try_again(case, conditions):
        if again and running.is_over():
            return Tally(conditions)
        again.append(case)
        return bench.try_case(case, [conditions])[0]

    tries = SecondTries(try_again, bench.sure_hangs)
    for number, (case, tallies) in enumerate(slow, 1):
        say(f"a hang that may only have been slow is tried again: {number} of {len(slow)}, {case.name}")
        settled = tries.settled(case, tallies)
        progress.add_failures(settled)
        yield case, settled


def run_cases(bench, cases, plan, jobs):
    """The results of cases, those that tell most first."""
    begun, results = time.monotonic(), Results()
    for case, tallies in tried(bench, telling_first(cases), plan, jobs, count=len(cases)):
        results.add(case, tallies)
    results.seconds = time.monotonic() - begun
    return results
