"""What came of many cases, and its values of JSON."""
import collections
import itertools
from dataclasses import asdict, dataclass, field

from spanprof.conformance.generate.constructs import constructs
from spanprof.conformance.generate.program import segment_count
from spanprof.conformance.generate.text_reader import read_program
from spanprof.conformance.generate.text_writer import text_of
from spanprof.conformance.judge.cases import Case, Failure
from spanprof.conformance.judge.verdicts import Verdict
from spanprof.conformance.run.launch import Conditions, Log

SEEN_ONCE = "hung once"  # hangs that a second try did not show, and that do not count
EXPECTED = "expected"    # failures that are known, and do not count either


@dataclass
class Outcome:
    """What came of one program with tasks of one kind: runs, failures by kind, and what was said of the first one."""
    counts: collections.Counter = field(default_factory=collections.Counter)
    words: str = ""
    known: list = field(default_factory=list)  # what is known of failures that were expected

    def add(self, tally):
        self.counts["runs"] += tally.runs
        self.counts.update(failure.verdict.kind for failure in tally.failures)
        self.known = sorted({*self.known, *tally.expected})
        self.words = self.words or next((failure.words for failure in tally.failures), "")

    @property
    def failed(self):
        """How many runs failed."""
        return sum(count for kind, count in self.counts.items() if kind != "runs")

    def kinds(self):
        """The kinds of failures, and how many runs failed so."""
        return ", ".join(f"{kind} {count}" for kind, count in sorted(self.counts.items()) if kind != "runs")

    def merge(self, other):
        self.counts.update(other.counts)
        self.words = self.words or other.words
        self.known = sorted({*self.known, *other.known})


@dataclass
class Group:
    """Failures that are taken for the same: how many runs, of which programs, and the one of the smallest program."""
    smallest: object
    runs: int = 0
    programs: set = field(default_factory=set)
    threads: set = field(default_factory=set)

    def add(self, failure):
        self.merge(Group(failure, 1, {failure.case.name}, {failure.conditions.threads}))

    def merge(self, other):
        self.smallest = min(self.smallest, other.smallest, key=lambda failure: segment_count(failure.case.body))
        self.runs += other.runs
        self.programs |= other.programs
        self.threads |= other.threads


class Results:
    """Counts by construct, setting and rule, and the failures in groups by their signatures."""

    def __init__(self):
        self.rows = collections.defaultdict(collections.Counter)        # by construct and number of threads
        self.conditions = collections.defaultdict(collections.Counter)  # by setting and schedule
        self.coverage = collections.Counter()                           # by rule, construct, measure and threads
        self.expected = collections.Counter()                           # by what is known of a failure
        self.outcomes = {}                                              # by program and how its tasks are written
        self.groups, self.seen, self.seconds = {}, set(), 0
        self.judged = 0                                                 # logs about which spanprof was asked

    def add(self, case, tallies):
        """Counts a case. The construct `all` is every case."""
        for construct, tally in itertools.product(("all", *sorted(constructs(case.body))), tallies):
            key = construct, tally.conditions.threads
            is_new = (case.name, key) not in self.seen
            self.seen.add((case.name, key))
            row = self.rows[key]
            row.update(programs=int(is_new), runs=tally.runs, events=tally.events)
            row.update(failure.verdict.kind for failure in tally.failures)
            row.update({SEEN_ONCE: tally.seen_once} if tally.seen_once else {})
            row.update({EXPECTED: sum(tally.expected.values())} if tally.expected else {})
        for tally in tallies:
            self.add_conditions(tally)
            self.expected.update(tally.expected)
            self.judged += tally.judged
            self.outcomes.setdefault((case.name, case.variant), Outcome()).add(tally)
            for failure in tally.failures:
                self.groups.setdefault(failure.signature, Group(failure)).add(failure)

    def add_conditions(self, tally):
        for schedule, runs in tally.schedules.items():
            self.conditions[tally.conditions.setting, schedule]["runs"] += runs
        for failure in tally.failures:
            schedule = failure.log.schedule if failure.log else ""
            self.conditions[tally.conditions.setting, schedule]["failures"] += 1
        for key, count in tally.coverage.items():
            self.coverage[(*key, tally.conditions.threads)] += count

    def merge(self, other):
        """Adds the results of other programs."""
        for mine, others in ((self.rows, other.rows), (self.conditions, other.conditions)):
            for key, counts in others.items():
                mine[key].update(counts)
        self.coverage.update(other.coverage)
        self.expected.update(other.expected)
        for key, outcome in other.outcomes.items():
            self.outcomes.setdefault(key, Outcome()).merge(outcome)
        for signature, group in other.groups.items():
            self.groups.setdefault(signature, Group(group.smallest)).merge(group)
        self.seconds += other.seconds
        self.judged += other.judged

    @property
    def runs(self):
        return sum(counts["runs"] for (construct, _), counts in self.rows.items() if construct == "all")

    def failed_programs(self):
        """The names of the programs that failed."""
        return sorted(set().union(*(group.programs for group in self.groups.values())))

    def most_frequent(self):
        """The signatures of failures and their groups, those with the most runs first."""
        return sorted(self.groups.items(), key=lambda pair: (-pair[1].runs, pair[0]))


def as_json(results):
    """All that results are."""
    return {"seconds": results.seconds, "judged": results.judged,
            "rows": [[*key, dict(counts)] for key, counts in sorted(results.rows.items())],
            "conditions": [[*key, dict(counts)] for key, counts in sorted(results.conditions.items())],
            "tried": [[*key, count] for key, count in sorted(results.coverage.items())],
            "expected": dict(results.expected),
            "outcomes": [[*key, dict(outcome.counts), outcome.words, outcome.known]
                         for key, outcome in sorted(results.outcomes.items())],
            "failures": [group_as_json(group) for _, group in results.most_frequent()]}


def group_as_json(group):
    failure = group.smallest
    return {"runs": group.runs, "programs": sorted(group.programs), "threads": sorted(group.threads),
            "name": failure.case.name, "tasks": failure.case.variant, "unit": failure.case.unit,
            "text": text_of(failure.case.body), "conditions": asdict(failure.conditions),
            "verdict": asdict(failure.verdict), "rule": failure.rule, "words": failure.words,
            "log": asdict(failure.log) if failure.log else None}


def from_json(fields):
    """The results that were written so."""
    results = Results()
    results.seconds, results.judged = fields["seconds"], fields.get("judged", 0)
    results.expected.update(fields["expected"])
    for name, variant, counts, words, known in fields["outcomes"]:
        results.outcomes[name, variant] = Outcome(collections.Counter(counts), words, known)
    results.coverage.update({tuple(key): count for *key, count in fields["tried"]})
    for name, kept in (("rows", results.rows), ("conditions", results.conditions)):
        kept.update({tuple(key): collections.Counter(counts) for *key, counts in fields[name]})
    for group in map(group_from_json, fields["failures"]):
        results.groups[group.smallest.signature] = group
    return results


def group_from_json(fields):
    case = Case(fields["name"], read_program(fields["text"]), fields["tasks"], fields["unit"])
    failure = Failure(case, Conditions(**fields["conditions"]), Verdict(**fields["verdict"]), fields["rule"],
                      fields["words"], Log(**fields["log"]) if fields["log"] else None)
    return Group(failure, fields["runs"], set(fields["programs"]), set(fields["threads"]))
