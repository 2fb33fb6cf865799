"""Asks spanprof about a program and about logs of its runs, and which failures are expected, by a file: a line for each
kind, with words `NAME=PATTERN`, and then what is known of it.

    family=gomp kind=crashed setting=priorities : found/priority_child_above_parent.c

A failure is expected where each of a line's patterns, as the shell has them, fits it. Names are family (gomp or kmp),
runtime (its file), kind, rule, tasks, program, setting, threads, and has, which fits where one of the constructs of the
program does. A word with blanks stands in quotes. Lines that begin with # are comments.
"""
import collections
import fnmatch
import pathlib
import shlex
import shutil
import subprocess
from dataclasses import dataclass

from spanprof.command import Fault
from spanprof.conformance.data import DATA
from spanprof.conformance.generate.constructs import constructs
from spanprof.conformance.judge.exclusion import first_overlap
from spanprof.conformance.run.mutants import family_of

BUILT = pathlib.Path(__file__).resolve().parents[4] / "crates" / "spanprof" / "out" / "spanprof"
USUAL = DATA / "expected.txt"
NAMES = ("family", "runtime", "kind", "rule", "tasks", "program", "setting", "threads", "has")


@dataclass(frozen=True)
class Verdict:
    """`accepted`, or a kind of failure; `detail` is spanprof's line, or what was seen."""
    kind: str
    detail: str = ""

    @property
    def accepted(self):
        return self.kind == "accepted"


TOO_MANY = Verdict("refused", "more events than the program can have")


class Missing(Fault):
    """Something that was asked for is not there."""


class Refused(Fault):
    """spanprof refuses the program's text."""


@dataclass
class Record:
    """What spanprof records for a program."""
    preds: list   # of each segment
    digest: str
    lines: str    # as `replay` prints them

    @property
    def segments(self):
        return len(self.preds)


def find_spanprof(environment):
    """Where the program is: where the environment's SPANPROF says, else where this repository builds it, else on the
    PATH."""
    reported = environment.get("SPANPROF")
    places = [reported] if reported else [str(BUILT), "spanprof"]
    found = [at for at in map(shutil.which, places) if at]
    if not found:
        raise Missing(f"no program {' nor '.join(places)}; SPANPROF says where it is")
    return found[0]


class Judge:
    """Asks the program at a path. `search` finds the first overlap of tasks that exclude one another."""

    def __init__(self, spanprof, search=first_overlap):
        self.spanprof, self.search = spanprof, search

    def ask(self, words, text):
        """The exit status and the output of a command of spanprof."""
        done = subprocess.run([self.spanprof, *words], input=text, capture_output=True, text=True, check=False)
        return done.returncode, done.stdout

    def record(self, text):
        """The record of a program, from a run on one worker."""
        status, answer = self.ask(["run", "--workers", "1"], text)
        if status:
            raise Refused(answer.strip() or f"{self.spanprof} ended with status {status}")
        lines = answer.split("\n")
        preds = [[int(n) for n in line.split()[2:]] for line in lines[3:] if line]
        return Record(preds, lines[2].split()[1], "\n".join(lines[3:]))

    def verdict(self, text, record, log):
        """Whether a run's log is that of a legal and finished run with the right record and values."""
        if log.wrong:  # from a wrong number all else follows
            return Verdict("values", log.wrong)
        if log.unlogged:
            return unordered_verdict(record, log)
        events = [event for event in log.events if event != "overflow"]
        replayed = self.replay(text, record, "\n".join(events))
        if replayed.kind == "refused":
            return replayed
        if len(events) < len(log.events):
            return TOO_MANY
        if log.end != "done":
            return Verdict(log.end, log.detail)
        if replayed.accepted and log.detail not in ("", record.digest):
            return wrong_value(record, log)
        return replayed

    def replay(self, text, record, events):
        """The verdict on a list of events."""
        status, answer = self.ask(["replay"], f"{text}---\n{events}\n")
        if status:
            return Verdict("refused", answer.strip().removeprefix("error: "))
        _, finished, rest = answer.split("\n", 2)
        if finished != f"finished {record.segments}":
            return Verdict("incomplete", f"{finished} of {record.segments} segments")
        if rest != record.lines:
            return Verdict("refused", "another record than that of `run`")
        return Verdict("accepted")


def wrong_value(record, log):
    """The verdict where the digest is wrong: the first segment that computed another value than it should."""
    if not log.value:
        return Verdict("values", f"digest {log.detail} was seen, {record.digest} is right")
    segment, seen, right = log.value.split()
    before = ", ".join(map(str, record.preds[int(segment)]))
    return Verdict("values", f"segment {segment} computed {seen}, and from what segments {before} left {right} is "
                             "right")


def unordered_verdict(record, log):
    """The verdict on a run of which only values and counts are known, and no order."""
    counted = collections.Counter(log.events)
    repeated = sorted(event for event, count in counted.items() if count > 1)
    if repeated:
        what, _, segment = repeated[0].split()
        return Verdict("refused", f"segment {segment} {'began' if what == 'start' else 'ended'} "
                                  f"{counted[repeated[0]]} times")
    if log.end != "done":
        return Verdict(log.end, log.detail)
    ended = sum(event.startswith("finish ") for event in counted)
    if ended < record.segments:
        return Verdict("incomplete", f"finished {ended} of {record.segments} segments")
    if log.detail != record.digest:
        return wrong_value(record, log)
    return Verdict("accepted")


class WrongLine(Fault):
    """A line that says nothing of failures."""


@dataclass(frozen=True)
class Expected:
    """One kind of expected failures."""
    patterns: tuple  # pairs of a name and a pattern
    why: str

    def fits(self, runtime, failure, usual="kmp"):
        """Whether a failure of a runtime is one of them; `usual` is its family where its file's name does not tell."""
        traits = {"family": family_of(runtime, usual), "runtime": runtime, "kind": failure.verdict.kind,
                  "rule": failure.rule, "tasks": failure.case.variant, "program": failure.case.name,
                  "setting": failure.conditions.setting, "threads": str(failure.conditions.threads)}
        traits = {**{name: [trait] for name, trait in traits.items()}, "has": constructs(failure.case.body)}
        return all(any(fnmatch.fnmatchcase(trait, pattern) for trait in traits[name])
                   for name, pattern in self.patterns)


def read_line(line):
    """What a line of the file expects."""
    words, colon, why = line.partition(" : ")
    patterns = tuple(tuple(word.split("=", 1)) for word in shlex.split(words))
    if not colon or not patterns or not all(len(pair) == 2 and pair[0] in NAMES for pair in patterns):
        raise WrongLine(f"{line!r} is no line of expected failures: NAME=PATTERN .. : WHY, of {', '.join(NAMES)}")
    return Expected(patterns, why.strip())


def read_expected(paths):
    """What the files expect."""
    lines = [line.strip() for path in paths for line in pathlib.Path(path).read_text().split("\n")]
    return [read_line(line) for line in lines if line and not line.startswith("#")]


class Expectations:
    """What is expected of a runtime, whose file is known, and whose family that of the compiler where the file's name
    does not tell it."""

    def __init__(self, runtime, expected, usual="kmp"):
        self.runtime, self.expected, self.usual = runtime, expected, usual

    def why(self, failure):
        """What is known of an expected failure, or None."""
        return next((one.why for one in self.expected if one.fits(self.runtime, failure, self.usual)), None)

    def settled(self, tally):
        """Takes the expected failures of a tally from those that count."""
        counted = []
        for failure in tally.failures:
            why = self.why(failure)
            if why is None:
                counted.append(failure)
            else:
                tally.expected[why] += 1
        tally.failures = counted
        return tally
