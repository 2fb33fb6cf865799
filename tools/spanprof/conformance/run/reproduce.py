"""Shrinks failures to programs that a person can read, as long as they still fail in the same way at least once in so
many runs, with delays at as few places of the runtime as are found; and writes each as one C file.

This is delta debugging over the program's tree: statements are left out in halves, quarters and so on, blocks give way
to what is in them, and clauses, items, turns and costs go one by one. A cost stays where the program fails less than
half as often without it.
"""
import concurrent.futures
import copy
import os
import pathlib
import subprocess
import tempfile
import textwrap
import threading
import time
from dataclasses import dataclass, field, replace

from spanprof.conformance.emit.alone import Alone
from spanprof.conformance.generate.program import Group, Loop, Task, Work, with_body
from spanprof.conformance.judge.cases import Failure
from spanprof.conformance.judge.rules import at_stake
from spanprof.conformance.judge.verdicts import Refused
from spanprof.conformance.run import perturb, self_checking
from spanprof.conformance.run.campaign import say
from spanprof.conformance.run.launch import SETTINGS, is_of_harness
from spanprof.conformance.run.perturb import at_places, named, seed_of
from spanprof.conformance.run.self_checking import is_self_checking
from spanprof.conformance.run.toolchain import BuildFailed

MOST_TRIES = 60
RUNS, SECONDS = 20, 15  # of the file by itself, whichever is over first
WIDTH = 110
MOST_EVENTS = 60        # of a log that is shown
FACTORS = (1, 4, 5)     # by which the runs grow where a failure is not seen again
LESS = 2                # by how much less often a small program fails where that is reported
OF_PROGRAM = 2          # runs of a self-checking program
LONGEST_TIMEOUT = 3     # seconds, while a program is made smaller


def smaller(body):
    """Programs that are one step smaller, the boldest steps first."""
    yield from without_chunks(body)
    for place, node in enumerate(body):
        for less in smaller_statements(node):
            yield body[:place] + less + body[place + 1:]


def without_chunks(body):
    size = len(body)
    while size:
        for begin in range(0, len(body), size):
            yield body[:begin] + body[begin + size:]
        size //= 2


def smaller_statements(node):
    """What could stand in the place of a statement: tuples of statements."""
    if isinstance(node, Work):
        if node.cost > 1:
            yield (Work(node.cost // 2),)
        return
    if isinstance(node, (Group, Task)):
        yield node.body
    if isinstance(node, Group) and node.form != "taskgroup":
        yield (replace(node, form="taskgroup"),)
    if isinstance(node, Loop):
        yield from smaller_loops(node)
    if isinstance(node, Task):
        yield from ((less,) for less in smaller_clauses(node))
    for body in smaller(getattr(node, "body", ())):
        yield (with_body(node, body),)


def smaller_loops(loop):
    """A loop with fewer turns; in place of one turn, its body; in place of a taskloop, a loop."""
    if loop.turns > 1:
        yield (replace(loop, last=loop.first),)
        yield (replace(loop, last=loop.last - 1),)
    elif loop.turns == 1:
        yield unrolled(loop.body, loop.var, loop.first)
    if loop.form != "for":
        yield (replace(loop, form="for"),)


def smaller_clauses(task):
    if task.undeferred:
        yield replace(task, undeferred=False)
    if task.final:
        yield replace(task, final=False)
    for items in without_chunks(task.items):
        yield replace(task, items=items)
    for clauses in without_chunks(task.clauses):
        yield replace(task, clauses=clauses)


def unrolled(body, var, turn):
    """A body in which a loop's variable is a number."""
    made = []
    for node in body:
        if isinstance(node, Task):
            node = replace(node, items=tuple(fixed(item, var, turn) for item in node.items))
        made.append(with_body(node, unrolled(node.body, var, turn)) if hasattr(node, "body") else node)
    return tuple(made)


def fixed(item, var, turn):
    if item.index is None or item.index.var != var:
        return item
    return replace(item, index=replace(item.index, var=None, offset=item.index.offset + turn))


def without_costs(body):
    """A program without its work."""
    return tuple(with_body(node, without_costs(node.body)) if hasattr(node, "body") else node
                 for node in body if not isinstance(node, Work))


@dataclass
class Trial:
    """A program that fails: one of its failures, and how many of how many runs failed."""
    failure: object
    failed: int
    runs: int = 1

    @property
    def rate(self):
        """How often it fails. A run that hangs is the last of its process, so there may be few runs."""
        return self.failed / self.runs


class Shrinker:
    """`fails` answers the trial of a program if it still fails, else None; at most `tries` programs are tried, and none
    once `is_over` answers so."""

    def __init__(self, fails, tries, is_over=lambda: False):
        self.fails, self.left, self.is_over, self.seen = fails, tries, is_over, set()

    def shrink(self, body, trial):
        """The smallest failing program found, and its trial."""
        while True:
            found = self.step(body, trial)
            if not found:
                return body, trial
            body, trial = found

    def step(self, body, trial):
        for candidate in smaller(body):
            if candidate in self.seen:
                continue
            if self.left <= 0 or self.is_over():
                return None
            self.seen.add(candidate)
            self.left -= 1
            again = self.fails(candidate)
            if again and not fades(body, trial, candidate, again):
                return candidate, again
        return None


def fades(body, trial, candidate, again):
    """Whether a candidate has only less work than the body, and fails much less often."""
    return 2 * again.rate < trial.rate and without_costs(candidate) == without_costs(body)


def passed(bench, case, conditions):
    """The places at which threads were delayed in runs of a case, in the order of the first delays."""
    with tempfile.TemporaryDirectory() as folder:
        file, other = pathlib.Path(folder) / "places", copy.copy(bench)
        other.environment = {**bench.environment, "PERTURB_PLACES": str(file)}
        other.try_case(case, [conditions])
        return tuple(dict.fromkeys(file.read_text().split())) if file.exists() else ()


def fewest(places, fails, is_over):
    """As few of some places as still make it fail."""
    seen = {places}
    while True:
        for fewer in without_chunks(places):
            if fewer in seen:
                continue
            if is_over() or len(seen) > MOST_TRIES:
                return places
            seen.add(fewer)
            if fails(fewer):
                places = fewer
                break
        else:
            return places


def fewest_delays(bench, case, conditions, fails, is_over=lambda: False):
    """The seed with the fewest places, or alone where a list of its places does not make it fail; `fails` answers
    whether a case fails with such delays."""
    given = conditions.perturb
    places = passed(bench, case, conditions)
    if not places or not fails(at_places(given, places)):
        return given
    return at_places(given, fewest(places, lambda some: fails(at_places(given, some)), is_over))


def delays_reported(runtime, perturb):
    """What a report says of delays."""
    seed, colon, places = perturb.partition(":")
    if not perturb:
        return ""
    if colon and not places:
        return "It fails without delays in the runtime too."
    reported = [named(runtime, place) for place in places.split(",") if place]
    return f"Threads were delayed {', '.join(reported)} by seed {seed_of(perturb)}." if reported else \
        f"Threads were delayed at the places of seed {seed}."


@dataclass(frozen=True)
class OneFile:
    """A C file that needs no other, and how many of how many runs of it failed."""
    source: str
    failed: int = 0
    runs: int = 0

    @property
    def rate(self):
        return f"{self.failed} of {self.runs} runs of the file fail" if self.runs else "the file was not run"


def started(setting):
    """The words before a program's own in a setting, and the variables that it reads without the harness."""
    words = [word.format(processor=min(os.sched_getaffinity(0))) for word in SETTINGS[setting].words]
    return words, {name: value for name, value in SETTINGS[setting].variables.items() if not is_of_harness(name)}


def head_of(failure, toolchain, environment, rate, name):
    """What the file's first comment says of a failure."""
    words, variables = started(failure.conditions.setting)
    if self_checking.is_self_checking(failure.case):
        variables["OMP_NUM_THREADS"] = str(failure.conditions.threads)
    built = ""
    if failure.conditions.perturb:
        built = f"cc -O2 -fPIC -shared tools/conformance/perturb/*.c -o {perturb.LIBRARY} && "
        variables.update(perturb.variables(failure.conditions.perturb),
                         LD_PRELOAD=f"'./{perturb.LIBRARY} {toolchain.runtime(environment)}'")
    start = " ".join([*(f"{key}={value}" for key, value in variables.items()), *words, "./a.out"])
    sentences = [failure.words, f"At stake: {at_stake(failure.verdict.kind, failure.rule)}.",
                 f"{toolchain.version()}, {toolchain.runtime_version(environment)}: {rate}.",
                 f"{built}{' '.join([*toolchain.cc, *toolchain.shown_flags])} -pthread {name} && {start}"]
    return "\n".join(line for words in sentences
                     for line in textwrap.wrap(words, WIDTH, subsequent_indent="  ", break_on_hyphens=False))


def runs_alone(program, conditions, environment):
    """How many of some runs fail, and how many were made."""
    failed, made, over = 0, 0, time.monotonic() + SECONDS
    words, variables = started(conditions.setting)
    variables.update(perturb.variables(conditions.perturb))
    while made < RUNS and time.monotonic() < over:
        try:
            status = subprocess.run([*words, str(program)], env={**environment, **variables}, capture_output=True,
                                    timeout=SECONDS, check=False).returncode
        except subprocess.TimeoutExpired:
            status = 1
        made, failed = made + 1, failed + (status != 0)
    return failed, made


def one_file(bench, failure, examined, name):
    """The file of a failure of a text, which is built and run."""
    alone = Alone(failure.case.body, examined.table, examined.record.preds, failure.verdict.kind)
    team = SETTINGS[failure.conditions.setting].variables.get("CONFORMANCE_TEAM", "")

    def source(rate):
        head = head_of(failure, bench.toolchain, bench.environment, rate, name)
        return alone.text(f"{head}\n\n{examined.text}", failure.conditions.threads, team)

    if failure.verdict.kind == "not built":
        return OneFile(source(OneFile("").rate))
    try:
        program = bench.toolchain.build_alone(source(""), name.removesuffix(".c"))
    except BuildFailed as refused:
        return OneFile(source(f"the file is not built: {refused}"))
    counts = runs_alone(program, failure.conditions, bench.environment)
    return OneFile(source(OneFile("", *counts).rate), *counts)


def file_of_program(bench, failure, name, failed, runs):
    """The file of a failure of a self-checking program."""
    rate = OneFile("", failed, runs).rate
    head = head_of(failure, bench.toolchain, bench.environment, rate, name).replace("*/", "* /")
    return OneFile(f"/* {head} */\n{self_checking.source(failure.case.name)}", failed, runs)


@dataclass
class Found:
    """A shrunk failure. `failed` of `runs` runs of the small program failed, in the ways `ways`."""
    failure: Failure
    origin: str
    text: str
    alone: object      # its one C file
    tried: int
    failed: int
    runs: int
    ways: list
    rate: tuple = ()   # runs that failed, and runs, of the program that it was found in
    stacks: list = field(default_factory=list)
    delays: str = ""   # where threads were delayed in the runtime

    def events(self):
        """The log up to the refused event, or its end."""
        log, detail = self.failure.log, self.failure.verdict.detail
        if not log:
            return []
        end = int(detail.split()[1].rstrip(":")) + 1 if detail.startswith("event ") else len(log.events)
        return log.events[:end][-MOST_EVENTS:]

    def remark(self):
        """How surely the failure is seen again."""
        if not self.failed:
            return "It was not seen again: the program is the one that it was seen in."
        if self.rate and self.failed * self.rate[1] * LESS < self.rate[0] * self.runs:
            return f"It fails less often than the program that it was found in, where {self.rate[0]} of " \
                   f"{self.rate[1]} runs did."
        if len(self.ways) > 1:
            return f"It fails in {len(self.ways)} ways: {'; '.join(self.ways)}."
        return ""


@dataclass(frozen=True)
class Limits:
    """Of the shrinking of one failure: runs in which a smaller program has to fail once, smaller programs to try, and
    seconds after which no more are tried."""
    runs: int
    tries: int
    seconds: float


def reproduce_all(bench, failures, limits, jobs):
    """What is found for each of the failures, of which so many are shrunk side by side, or for those that are done when
    somebody stops it."""
    interrupted = threading.Event()
    done = []

    def reproduce(failure):
        over = time.monotonic() + limits.seconds
        if is_self_checking(failure.case):
            return of_program(bench, failure)
        found = Reproducer(bench, failure, limits, lambda: interrupted.is_set() or time.monotonic() > over).reproduce()
        say(f"made smaller: {failure.case.name}, {failure.verdict.kind}, {failure.rule}")
        return found

    pool = concurrent.futures.ThreadPoolExecutor(jobs)
    try:
        for found in pool.map(reproduce, failures):
            done.append(found)
    except KeyboardInterrupt:
        say("stopped: the programs are as small as they were")
    finally:
        interrupted.set()
        pool.shutdown(cancel_futures=True)
    return done


def of_program(bench, failure):
    """A self-checking program is as small as it can be; it is run once more."""
    failure, conditions = with_fewest_delays(bench, failure, replace(failure.conditions, runs=OF_PROGRAM),
                                             lambda other: is_like(other, failure))
    tally = bench.try_case(failure.case, [conditions])[0]
    file = file_of_program(bench, failure, f"{failure.case.name}.c", len(tally.failures), tally.runs)
    return Found(failure, failure.case.name, "", file, 0, len(tally.failures), tally.runs, [],
                 delays=delays_of(bench, failure))


def with_fewest_delays(bench, failure, conditions, is_one, is_over=lambda: False):
    """The failure, and conditions, with as few delays in the runtime as a failure needs that is one to look for."""
    def fails(perturb):
        return any(map(is_one, bench.try_case(failure.case, [replace(conditions, perturb=perturb)])[0].failures))

    if not conditions.perturb:
        return failure, conditions
    perturb = fewest_delays(bench, failure.case, conditions, fails, is_over)
    return replace(failure, conditions=replace(failure.conditions, perturb=perturb)), \
        replace(conditions, perturb=perturb)


def delays_of(bench, failure):
    perturb = failure.conditions.perturb
    return delays_reported(bench.toolchain.runtime(bench.environment), perturb) if perturb else ""


class Reproducer:
    """Shrinks a failure on a bench, until that is over. A program still fails if one of so many runs does: in the same
    way as the first, or in any way where that way is not seen again."""

    def __init__(self, bench, failure, limits, is_over=lambda: False):
        self.bench, self.failure, self.tries, self.is_over = bench, failure, limits.tries, is_over
        self.any_way = False
        timeout = min(failure.conditions.timeout, LONGEST_TIMEOUT)
        self.conditions = replace(failure.conditions, runs=limits.runs, timeout=timeout)

    def reproduce(self):
        """The smallest program found; where the failure is not seen again, the one that it was seen in."""
        shrinker, small = Shrinker(self.again, self.tries, self.is_over), self.failure
        first = self.first_again()
        if first:
            small, self.conditions = with_fewest_delays(self.bench, small, self.conditions, self.is_one, self.is_over)
            small = shrinker.shrink(self.failure.case.body, first)[1].failure
        tally = self.tally(small.case)
        stacks = self.bench.stacks_of(small.case, self.conditions) if small.verdict.kind == "hung" else []
        examined = self.bench.examined(small.case)
        ways = sorted({f"{f.verdict.kind}, {f.rule}" for f in tally.failures})
        alone = one_file(self.bench, small, examined, f"{small.case.name}.c")
        return Found(small, self.failure.case.name, examined.text, alone, len(shrinker.seen), len(tally.failures),
                     tally.runs, ways, (first.failed, first.runs) if first else (), stacks,
                     delays_of(self.bench, small))

    def first_again(self):
        """The failure once more. A rare one takes more runs, which then all later tries get."""
        for self.any_way in (False, True):
            runs = self.conditions.runs
            for factor in FACTORS:
                self.conditions = replace(self.conditions, runs=self.conditions.runs * factor)
                trial = self.again(self.failure.case.body)
                if trial:
                    return trial
            self.conditions = replace(self.conditions, runs=runs)
        return None

    def is_one(self, failure):
        return self.any_way or is_like(failure, self.failure)

    def tally(self, case):
        return self.bench.try_case(case, [self.conditions])[0]

    def again(self, body):
        """The trial of a program that fails as the first one did, or None."""
        try:
            tally = self.tally(replace(self.failure.case, body=body))
        except Refused:
            return None
        failures = [f for f in tally.failures if self.is_one(f)]
        return Trial(failures[0], len(failures), tally.runs) if failures else None


def places(failure):
    """The constructs at which a run hung."""
    return set(failure.rule.removeprefix("at ").split(", "))


def is_like(failure, first):
    """Whether a smaller program fails as the first one did; a hang may be at fewer constructs."""
    if failure.signature == first.signature:
        return True
    return failure.verdict.kind == first.verdict.kind == "hung" and places(failure) <= places(first)
