"""The diagnosis of a recording: what a terminal shows, and the JSON of it, whose fields docs/FORMATS.md has; and two
recordings of a program, before and after a change: whether it is faster, where, and what was predicted of it.

Their places are matched by their kind, their function and their order in the source, since an edit moves lines.
"""
import os
import re
import time
from dataclasses import dataclass
from typing import List, Optional

from spanprof.command import Fault
from spanprof.diagnosis.calls import is_interpreter
from spanprof.diagnosis.causes import BY_KIND
from spanprof.diagnosis.changes import Bench, rewriting
from spanprof.diagnosis.diagnose import Diagnosis, best_of, bounds, diagnose, taken_by_others
from spanprof.diagnosis.facts import facts_of, greedy_end
from spanprof.diagnosis.losses import losses
from spanprof.diagnosis.names import Names
from spanprof.diagnosis.places import lines_between
from spanprof.diagnosis.sentences import LABEL, WIDTH, change_sentence, lost_sentence, short_lines, shortened, sum_lines
from spanprof.head import lasting
from spanprof.recording import open_recording
from spanprof.source_lines import Sources
from spanprof.whatif.requests import Text, seconds_for, version_of

SCHEMA = 1
MILLION = 1e6
LONG = 50000        # pieces of code
A_PIECE = 7e-6      # seconds that it takes to read one of a text
MOST_OF_IT = 0.4    # of the run's time
ONE_RUN = 0.05      # of the time, that two runs of one program may differ
MOST_PLACES = 2
LEAST = 0.02        # of the time before, from which on a place is reported
HEAD = re.compile(r" at [^\s:]+:\d+.*$")


def milliseconds(time):
    return round(time / MILLION, 6)


def place_json(facts, names, name):
    """`lines` is the first and the last one; None where the file is not known."""
    place = facts.places.get(name)
    file, first, last = names.stretch(place) if place else names.line(name)
    function = names.function(place) if place else names.function_at(name)
    ran = names.ran(place) if place else None
    sampled = {"ran": dict(ran._asdict(), caller=ran.caller or None, share=round(ran.share, 3))} if ran else {}
    return {"name": name, "function": function or None, "file": file or None,
            "lines": [first or last, max(first, last)] if file else None, **sampled}


def change_json(facts, names, step):
    return {"kind": step.change.kind if step.change else step.kind, "what": change_sentence(facts, names, step),
            "requests": ["--%s %s" % one for one in step.change.requests] if step.change else [],
            "from_ms": milliseconds(step.before), "to_ms": milliseconds(step.after),
            "low_ms": milliseconds(step.low), "high_ms": milliseconds(step.high), "at_best": step.at_best}


def step_for(found, loss):
    """The change that wins back most of a loss; none of what an interpreter ran."""
    if is_interpreter(loss.place):
        return None
    steps = [step for step in found.plan[:1] + found.steps if step.kind == loss.kind]
    return next((step for step in steps if step.place == loss.place), None) or best_of(steps)


def cause_json(found, names, loss):
    facts, step = found.facts, step_for(found, loss)
    place = step.place if step and loss.kind == step.kind and not loss.place else loss.place
    return {"kind": loss.kind, "place": place_json(facts, names, place), "lost_share": round(facts.lost_share(loss), 6),
            "lost_ms": milliseconds(loss.time / facts.target), "what": lost_sentence(facts, names, loss),
            "change": change_json(facts, names, step) if step else None,
            "how": "predicted" if step and step.change else "bound"}


def times_json(found):
    facts = found.facts
    spread = [milliseconds(min(facts.true_many)), milliseconds(max(facts.true_many))] if facts.true_many else None
    return {"threads": facts.threads, "now_ms": milliseconds(found.now), "best_ms": milliseconds(found.best),
            "one_ms": milliseconds(facts.on_one) if facts.on_one else None,
            "speedup": round(facts.on_one / found.now, 3) if facts.on_one and found.now else None,
            "spread_ms": spread, "recorded_ms": milliseconds(facts.elapsed)}


def losses_json(found):
    return [{"kind": loss.kind, "place": loss.place or None, "share": round(found.facts.share(loss.time), 6)}
            for loss in found.losses]


def as_json(found, names):
    facts = found.facts
    return {"schema": SCHEMA, "program": facts.program, "times": times_json(found),
            "diagnosis": [cause_json(found, names, loss) for loss in found.causes if loss.kind in BY_KIND],
            "plan": [dict(change_json(facts, names, step), cause=step.kind, instead=step.is_instead)
                     for step in found.plan],
            "losses": losses_json(found), "code_share": round(facts.share(found.code_on_one), 6)}


@dataclass
class Output:
    found: Diagnosis
    names: Names

    def lines(self, more="", news=()):
        return short_lines(self.found, self.names, more, news)

    def sum_lines(self):
        return sum_lines(self.found, self.names)

    def json(self):
        return as_json(self.found, self.names)


def needs_trials(facts, seconds):
    """Of a long text that has lost most to a cause that no change of the text tells, none is tried: each is a pass over
    all of it. Nor is one where the text takes most of the time to read."""
    pieces, found = sum(place.pieces for place in facts.places.values()), losses(facts)
    if 2 * pieces * A_PIECE > seconds:
        return False
    facts.taken = taken_by_others(facts, found)
    first = next(iter(bounds(facts, facts.now, found)), None)
    return pieces < LONG or not first or first.gain < MOST_OF_IT * first.before


def bench_of(path, facts, end_of, seconds):
    """None where no change can be tried, as on a text of version 2."""
    if version_of(path) == 2:
        return None
    try:
        return Bench(Text(path, 1), facts, end_of, seconds)
    except (Fault, OSError):
        return None


def output_of(recording, folders=(), seconds=None, end_of=greedy_end):
    """`folders` are where the source is; without them beside the recording, and here. All takes so many seconds, or as
    long as a person waits: changes are tried in what is left of them."""
    begun, facts = time.monotonic(), facts_of(recording, end_of)
    left = (seconds or seconds_for(facts.elapsed)) - (time.monotonic() - begun)
    bench = bench_of(recording.text, facts, end_of, left) if needs_trials(facts, left) else None
    beside = [os.path.dirname(os.path.abspath(recording.folder or recording.text)), os.getcwd()]
    names = Names(facts, Sources(list(folders) or beside, facts.sources, bool(folders)))
    if bench:
        facts.needless = set(filter(names.is_needless, bench.seen.waits))
        facts.rewriting = rewriting(facts, names)
    return Output(diagnose(facts, bench), names)


def diagnosis_of(answers, folders=()):
    """Of a recorded run on several threads; None where there is none, as of a text without times."""
    if not answers.head.elapsed or (answers.head.threads or 1) == 1:
        return None

    def end_of(path, threads):
        """Of the schedule that the page of a long text shows."""
        is_shown = answers.is_long and answers.threads == threads and answers.greedy
        return answers.greedy.end if is_shown else greedy_end(path, threads)
    try:
        return output_of(open_recording(answers.path), folders, end_of=end_of)
    except (Fault, OSError):
        return None


@dataclass
class Place:
    """One that both have, or one of them: its threads' time in code, and idle while it ran, before and after."""
    before: Optional[str]
    after: Optional[str]
    was: int
    now: int

    @property
    def less(self):
        return self.was - self.now


@dataclass
class Compared:
    """Of two that were reported; times are in nanoseconds."""
    before: object
    after: object
    spread: float
    places: List[Place]

    @property
    def was(self):
        return self.before.found.now

    @property
    def now(self):
        return self.after.found.now

    @property
    def change(self):
        """Of the time before; more than 0 where it became slower."""
        return (self.now - self.was) / self.was if self.was else 0.0

    @property
    def is_other(self):
        return abs(self.change) > self.spread


def spread_of(facts):
    """By how much of the median the runs differ from it at most; of one run as runs mostly do."""
    runs = facts.true_many or []
    if len(runs) < 2 or not facts.seen:
        return ONE_RUN
    return max(max(runs) - facts.seen, facts.seen - min(runs)) / facts.seen


def matched_by(facts):
    """The names of places by what they have in common in another version of the source: the kind of their code, their
    function, and how many of these stand before them."""
    found, counts = {}, {}
    for name in sorted(facts.places, key=lambda name: lines_between(facts.places[name])):
        file, first, last = lines_between(facts.places[name])
        function = facts.functions.get("%s:%d" % (file, first or last), "")
        kind = HEAD.sub("", name)
        counts[kind, function] = counts.get((kind, function), 0) + 1
        found[kind, function, counts[kind, function]] = name
    return found


def time_at(facts, name):
    """Of the run, in code and idle at a place: what it would take less without it."""
    if name is None:
        return 0
    place = facts.places[name]
    return (place.cost + facts.starved_by.get(name, 0) + facts.delayed_by.get(name, 0)) // facts.target


def places_of(before, after):
    """Those with the greatest differences first."""
    one, other = matched_by(before), matched_by(after)
    found = [Place(one.get(key), other.get(key), time_at(before, one.get(key)), time_at(after, other.get(key)))
             for key in {**one, **other}]
    return sorted(found, key=lambda place: -abs(place.less))


def is_slower(found, percent):
    """Whether by more than so much, and by more than the runs differ."""
    return found is not None and percent is not None and found.is_other and 100 * found.change > percent


def compared(before, after):
    """Of two recordings whose diagnoses are reported."""
    facts, others = before.found.facts, after.found.facts
    return Compared(before, after, max(spread_of(facts), spread_of(others)), places_of(facts, others))


def verdict(found):
    times = "%s -> %s" % (lasting(found.was), lasting(found.now))
    runs = "runs differ by %.0f %%" % (100 * found.spread)
    if not found.is_other:
        return "no difference: %s; %s" % (times, runs)
    factor = found.was / found.now if found.now < found.was else found.now / found.was
    return "%.2f times %s: %s (%+.0f %%); %s" % (
        factor, "as fast" if found.now < found.was else "slower", times, 100 * found.change, runs)


def place_line(found, place):
    """With its name in the version that has it."""
    reported = found.after if place.after else found.before
    name = reported.names.place(place.after or place.before)
    missing = "" if place.before and place.after else ", new" if place.after else ", gone"
    return "%s%s: %s -> %s of the run" % (name, missing, lasting(place.was), lasting(place.now))


def predicted_line(found):
    """What was predicted of the first change; empty where there was none."""
    reported, plan = found.before, found.before.found.plan
    if not plan:
        return ""
    return "%s for: %s" % (lasting(plan[0].after), change_sentence(reported.found.facts, reported.names, plan[0]))


def comparison_lines(found):
    """At most six."""
    last = found.after.found
    places = [place for place in found.places if abs(place.less) >= LEAST * found.was][:MOST_PLACES]
    reported = [(found.after.found.facts.program or "program", verdict(found))]
    reported += [("where" * (i == 0), place_line(found, place)) for i, place in enumerate(places)]
    reported += [("predicted", predicted_line(found))] * bool(predicted_line(found))
    reported += [("now", "lost %.0f %%: %s" % (100 * last.facts.lost_share(loss), lost_sentence(
        last.facts, found.after.names, loss))) for loss in last.causes[:1]]
    width = max(LABEL, *(len(label) + 2 for label, _ in reported[1:]))
    return [shortened("%s: %s" % reported[0], WIDTH)] + [shortened("%-*s%s" % (width, *one),
                                                                   WIDTH) for one in reported[1:]]


def compared_json(place):
    return {"before": place.before, "after": place.after, "was_ms": milliseconds(place.was),
            "now_ms": milliseconds(place.now)}


def comparison_json(found):
    plan = found.before.found.plan
    return {"schema": 1, "was_ms": milliseconds(found.was), "now_ms": milliseconds(found.now),
            "change": round(found.change, 6), "spread": round(found.spread, 6), "differs": found.is_other,
            "predicted_ms": milliseconds(plan[0].after) if plan else None,
            "places": [compared_json(place) for place in found.places if place.was or place.now],
            "before": found.before.json(), "after": found.after.json()}
