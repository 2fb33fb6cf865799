"""From the facts of a run to what is reported of it: the causes, and the plan, which is the change that brings most and
the best one on top of it, each with the run's time before and after it; where no change of the text tells more, that
time as if the run lost nothing by one cause.
"""
from dataclasses import dataclass, field, replace
from typing import List, Optional

from spanprof.diagnosis.calls import (SHARES, called_code, innermost, interpreted_time, is_interpreter, own_share,
                                      parallel_places)
from spanprof.diagnosis.causes import AT_BEST, BUSY, BY_KIND, EFFICIENT, ESTIMATED, SECOND, WORTH_A_CHANGE
from spanprof.diagnosis.changes import Change
from spanprof.diagnosis.losses import (CROWDED, FINE, NO_CAUSE, OF_SHAPE, Loss, code_on_one, in_code_losses,
                                       is_in_a_row, kind_of_task, least_of, losses, made_by_one, merged,
                                       share_of_start, slowed_lines)
from spanprof.diagnosis.names import is_of_programs, threads_for_sleep
from spanprof.diagnosis.places import SERIAL, TASK
from spanprof.program_text import BEGINNING, where

FOR_CODE = (*OF_SHAPE, "undeferred", "loop_schedule")   # in which threads wait while others run it
SHORTER = (*ESTIMATED, "system")    # causes without which the same code is shorter
BOUND_LEAST = 0.3   # of the gain of a bound: less is rare
A_RECORDED = 200    # nanoseconds that recording takes of a task (What recording costs, in the recorder's manual)
HIDDEN = 0.5        # of what sleep costs, that more threads win back at least which are advised
STEPS = 3
SPREAD = 0.16       # of a predicted time: nine of ten were within
# How often such a change is one that a program allows: what it brings is weighed with it.
LIKELY = {"in-for-inout": 1.0, "read-only": 0.9, "defer": 1.0, "split": 0.8, "task": 0.6, "rename": 0.9,
          "drop-depend": 0.3, "drop-wait": 0.3}
# A wait for tasks that depend items order too may not be needed; nor one that only some turns of the loop reach that
# makes the tasks, as if these used a few buffers in turns; nor one that ends turns which work on data of their own.
ORDERED = 0.9
# Tasks that are made to run one after the other by items of several are mostly meant to run at once, but for those that
# write what others read.
IN_A_ROW = 0.9
AT_THE_ENDS = 0.4   # code before all constructs, or after them, mostly reads, fills or frees
ALIKE = 0.7         # of the gain of a change, that another one in its place brings at least
LATER = 0.08        # of the time before it, that a change on top of another brings at least
SHARED = 0.6        # tasks that hold the same to write, and items of their own, seldom have to be divided
FEW_HOLD = 0.4      # items that fewer than half of a place's tasks hold are seldom read alone
MOST_TASKS = 20000    # tasks: a second or two
POOL = 0.25     # of what the shape lost, that a change wins back of whose kind it is then


@dataclass(frozen=True)
class Step:
    """Times are of the run, in nanoseconds. Without a change it is a bound: what is lost by its cause is gone."""
    kind: str
    place: str
    before: int
    after: int
    low: int
    high: int
    likely: float = 1.0
    change: Optional[Change] = None
    is_instead: bool = False    # of the step before it
    is_between: bool = False    # `low` and `high`: more is not known
    threads: Optional[int] = None       # with which code sleeps while other code runs; 0 where none help

    @property
    def gain(self):
        return self.before - self.after

    @property
    def worth(self):
        return self.gain * self.likely

    @property
    def at_best(self):
        """Whether no change of this kind brings more."""
        is_bound = self.change is None and not self.threads and self.low == self.after
        return is_bound and BY_KIND[self.kind].without == AT_BEST


def predicted(now, before, end):
    """The run's time after a change, by how much sooner the greedy run of the text ends."""
    return int(now * end / before) if before else now


def least_time(facts, code):
    """All of this code on as many threads as run at once."""
    return int(facts.seen * facts.least_time(code) / max(facts.elapsed, 1))


def waiting_for(facts, found, loss):
    """Of the time in which threads wait for code, the share of that code that is lost."""
    place = facts.places.get(loss.place)
    slow = [place] if place else parallel_places(facts)
    cost, names = sum(one.cost for one in slow), {one.name for one in slow}
    waits = sum(one.time for one in found if one.place in names and one.kind in FOR_CODE)
    return int(waits * min(1, loss.time / cost)) if loss.kind in SHORTER and cost else 0


def waiting_for_recorder(facts, loss):
    """What the others wait for one thread while it records: that a small region begins or ends; or that it makes a
    task, where it makes all of them, while others record that these begin and end, which takes as long. Of tasks what
    recording them takes between two pieces of code, too, is among what they lose."""
    recorder = facts.recorder if loss.kind == "small_regions" else \
        facts.recorder // 2 if loss.kind in FINE and made_by_one(facts) else 0
    between = max(0, A_RECORDED * facts.tasks - facts.recorder) if loss.kind in FINE else 0
    return min(loss.time, max(between, (facts.threads - 1) * recorder))


def left(facts, now, loss, found):
    """Of the run, without what is lost by this cause; all other code is still to run. What the recorder takes, of
    itself and of those that wait for it, is part of neither time."""
    in_code = sum(one.time for one in in_code_losses(facts) if one.kind == loss.kind)
    in_code = max(in_code, loss.time) if in_code else 0
    freed = freed_with(facts, loss, found)
    waiting = waiting_for_recorder(facts, loss)
    gone = loss.time + waiting_for(facts, found, loss) + sum(freed.values()) - waiting
    least = least_time(facts, facts.code - in_code - freed["memory"])
    unrecorded = max(1, facts.own_time - facts.recorder - waiting)
    return min(now, max(int(now * (1 - gone / unrecorded)), least))


def meets_at(facts, loss, place):
    """Whether threads meet in this code for what they lose: at a region, in chunks so small that neighbouring turns use
    the same lines, or to spin or wait for a lock."""
    if loss.kind == "lock":
        return loss.place in facts.calls.at.get(place, {})
    return {"small_regions": where(place), "small_chunks": place, "spin": place}.get(loss.kind) == loss.place


def freed_with(facts, loss, found):
    """By kind, what else goes where threads meet less often: lines that pass between them, and waits at regions."""
    kinds = ("memory", "loop_schedule") if loss.kind == "small_regions" else ("memory",)
    freed = [one for one in found if one.kind in kinds and meets_at(facts, loss, one.place)]
    return {kind: sum(one.time for one in freed if one.kind == kind) for kind in ("memory", "loop_schedule")}


def bound_of(facts, now, loss, found=()):
    """As if what is lost by this cause were gone. The least is 0 where lines pass: not all of these were seen."""
    after = low = left(facts, now, loss, found)
    if freed_with(facts, loss, found)["memory"]:
        low = 0
    elif loss.kind == "strides" or loss.kind == "memory" and facts.cost_on_one is None:
        uses = facts.calls.strides if loss.kind == "strides" else facts.calls.shares
        low = left(facts, now, loss._replace(time=max(loss.time, slowed_lines(facts, loss.place, uses))), found)
    return Step(loss.kind, loss.place, now, after, low, int(now - BOUND_LEAST * (now - after)),
                is_between=0 < low < after)


def queueing(facts, name, threads):
    """Threads that sleep at once wake up at once: the last one waits while the others' code runs on the processors."""
    place = facts.places.get(name)
    code = max(0, place.cost - facts.asleep_by.get(name, 0)) // max(place.pieces, 1) if place else 0
    return max(0, code * (threads - facts.usable) // facts.usable)


def while_asleep(facts, bench, step, is_crowded=False):
    """The same step where other threads run meanwhile, if these win back much of what sleep costs; none where threads
    wait for processors already."""
    number = 0 if is_crowded or is_of_programs(facts, step.place) else threads_for_sleep(facts)
    least = least_time(facts, facts.code + facts.recorder)
    end = predicted(step.before, bench.end([]), bench.end_on(number)) if number else step.before
    after = min(step.before, max(least, end + queueing(facts, step.place, number)))
    if step.before - after < HIDDEN * step.gain:
        return replace(step, threads=0)
    return replace(step, after=after, low=after, threads=number)


def on_processors(facts, step):
    """The same step where each processor runs one thread: no sooner than the greedy run of the text ends on as many, in
    which threads wait at each barrier for the largest piece before it. What the recorder takes is part of neither
    time."""
    unrecorded = facts.elapsed - facts.recorder // facts.usable
    return replace(step, after=min(step.before, max(step.after, predicted(step.before, unrecorded, facts.scheduled))))


def bounds(facts, now, found, bench=None):
    """Of the losses for which no change of the text is tried."""
    least = {kind: least_of(facts, found, kind) for kind, cause in BY_KIND.items() if cause.is_bound}
    steps = [bound_of(facts, now, loss, found) for loss in found
             if loss.kind in least and loss.time >= least[loss.kind]]
    is_crowded = any(loss.kind == "too_many_threads" for loss in found)
    steps = [while_asleep(facts, bench, step, is_crowded) if bench and step.kind == "sleep" else step for step in steps]
    return [on_processors(facts, step) if facts.scheduled and step.kind in CROWDED else step for step in steps]


def code_of_region(facts, region):
    """Of all threads, but for what the runtime takes to start them."""
    return region.code - sum(loss.time for loss in in_code_losses(facts) if loss.kind == "small_regions")


def on_one(facts, step):
    """In place of a step for small regions, or for barriers in one: the same on one thread, which has no barriers. How
    starting grows with the number of threads one run does not tell, so none between is named. None where the code of
    all threads together is longer than the regions, or other programs took processors."""
    region = next((one for one in facts.regions if one.place == step.place), None)
    if step.kind != "small_regions" or not region or region.threads < 2 or facts.taken:
        return []
    elapsed = region.elapsed - facts.recorder       # all wait while one records
    code = code_of_region(facts, region)
    if not 0 < code <= elapsed:
        return []
    after = step.before - int((elapsed - code) * step.before / max(facts.elapsed, 1))
    return [replace(step, after=after, low=after, threads=1, is_instead=True, is_between=False)]


def holder(facts, name):
    """The place with the most tasks that hold a name to write."""
    return max(facts.places.values(), key=lambda place: place.items[("inout", name)])


def cause_of(facts, change):
    """The kind of the loss that a change wins back, and its place."""
    place = facts.key(change.place)
    if change.kind == "in-for-inout":
        return "dependence", holder(facts, place).name
    if change.kind == "split":
        return kind_of_split(facts, place), place
    return {"drop-depend": "dependence", "read-only": "dependence", "rename": "dependence", "drop-wait": "wait",
            "defer": "undeferred", "task": "too_few_tasks"}[change.kind], place


def kind_of_split(facts, name):
    found = facts.places[name]
    if found.kind != TASK or not facts.has_tasks:
        return "serial"
    return kind_of_task(facts, found) if kind_of_task(facts, found) == "imbalance" else "too_few_tasks"


def is_at_an_end(facts, name):
    """Whether code stands before all constructs of the program, or after them."""
    place = facts.places.get(name)
    return bool(place) and place.kind == SERIAL and (name == BEGINNING or place.last_end == "")


def is_alone(seen, name):
    """Whether nearly each of these waits stands right behind the only task that it waits for: none of these overlap."""
    return 10 * seen.alone[name] >= 9 * seen.waits[name] > 0


def likely(facts, seen, change):
    if change.kind == "drop-wait":
        free = all(seen.ordered[one.word] or one.word in facts.needless or is_alone(seen, one.word)
                   for one in change.requests)
        return ORDERED if free else LIKELY["drop-wait"]
    if change.kind == "in-for-inout":
        place = holder(facts, change.place)
        return LIKELY[change.kind] if 2 * place.items[place.most_written] >= place.tasks else FEW_HOLD
    if change.kind == "drop-depend" and is_in_a_row(facts.places[facts.key(change.place)]):
        return LIKELY[change.kind] if facts.key(change.place) in facts.rewriting else IN_A_ROW
    if change.kind == "split" and facts.places[facts.key(change.place)].shared_at:
        return SHARED
    return AT_THE_ENDS if is_at_an_end(facts, change.place) else LIKELY[change.kind]


def named_share(facts, name):
    """Of serial code that is named by a function, what that has of its samples; all where it has most of them."""
    place = facts.places.get(name)
    ran = innermost(called_code(facts, place)) if place and place.kind == SERIAL else None
    return ran.share if ran and ran.share < SHARES[0] else 1.0


def undivided(facts, name):
    """Of the code at a place, the share in which the program and its runtime start, or that is not the program's, or
    not in the function that the change names."""
    start = share_of_start(facts) if name == BEGINNING else 0.0
    return 1 - (1 - start) * min(own_share(facts, name), named_share(facts, name))


def left_alone(facts, change):
    """The same of all code that is divided."""
    divided = [facts.places[facts.key(one.word.rpartition("=")[0])] for one in change.requests]
    whole = sum(place.cost for place in divided)
    return sum(undivided(facts, place.name) * place.cost for place in divided) / max(whole, 1)


def step_of(facts, seen, now, before, tried):
    """Of a change that was tried; `before` is where the greedy run ended without it."""
    after = min(now, max(predicted(now, before, tried.end),
                         least_time(facts, facts.code + facts.asleep + facts.recorder)))
    kind, place = cause_of(facts, tried.change)
    if tried.change.kind == "split":
        after += int((now - after) * left_alone(facts, tried.change))
    return Step(kind, place, now, after, int(after * (1 - SPREAD)), min(now, int(after * (1 + SPREAD))),
                likely(facts, seen, tried.change), tried.change)


def best_of(steps, least=WORTH_A_CHANGE):
    worthy = [step for step in steps if step.gain >= least * step.before]
    return max(worthy, key=lambda step: step.worth, default=None)


def instead_of(first, ranked):
    """Where a wait may be needed, or may not, the other change that wins back most of what the first one does; in place
    of a loop's barrier another schedule."""
    if first.kind == "barrier":
        return [replace(first, kind="loop_schedule", is_instead=True)]
    other = [step for step in ranked if step.change and step.kind != first.kind and "wait" in (step.kind, first.kind)
             and step.gain >= ALIKE * first.gain]
    return [replace(step, is_instead=True) for step in other[:1]]


def steps_after(facts, bench, found, first, ranked):
    """What may take the place of the first step, and the best steps on top of it."""
    made, others = list(first.change.requests if first.change else ()), instead_of(first, ranked)
    plan, done = [first], {(step.kind, step.place) for step in [first, *others]}
    while len(plan) < STEPS and bench.has_time():
        now, before = plan[-1].after, bench.end(made)
        tried = bench.tries([step.change for step in ranked if step.change and step.change != first.change][:2 * STEPS],
                            made)
        steps = [step_of(facts, bench.seen, now, before, one) for one in tried] + bounds(facts, now, found, bench)
        step = best_of([one for one in steps if (one.kind, one.place) not in done], LATER)
        if not step:
            break
        plan.append(step)
        done.add((step.kind, step.place))
        made += step.change.requests if step.change else ()
    return plan[:1] + others + plan[1:STEPS - len(others)]


def scheduled_end(text, unit, facts):
    """Of a text, in nanoseconds as its unit is; None where that takes too long to tell."""
    from spanprof.predict.gnu import LOCK, GnuSimulation        # few runs need them
    from spanprof.predict.policy import Simulation, Spent
    from spanprof.predict.program import read_program
    program = read_program(text)
    if len(program.tasks) > MOST_TASKS:
        return None
    kind, lock = (GnuSimulation, LOCK) if facts.is_on_gcc else (Simulation, 0)
    return kind(program, [cost * unit for cost in program.costs], facts.usable, Spent(lock=lock)).run().end


def as_scheduled(facts, bench, step):
    """A first step that defers tasks of the program, in its own order: how many it has to, one run does not tell. A few
    may do as well as in a greedy run; where all do as the runtime has it much worse, the time lies between both."""
    if not step.change or step.change.kind != "defer" or not bench.has_time():
        return step
    before, after = (scheduled_end(bench.text_with(made), bench.unit, facts) for made in ((), step.change.requests))
    latest = min(step.before, predicted(step.before, before, after)) if before and after else 0
    if latest <= step.high:
        return step
    return replace(step, after=(step.after + latest) // 2, low=step.after, high=latest, is_between=True)


@dataclass
class Diagnosis:
    """Times in nanoseconds. `causes` has the first, and a second one where that is much."""
    facts: object
    losses: List[Loss] = field(default_factory=list)
    causes: List[Loss] = field(default_factory=list)
    plan: list = field(default_factory=list)
    steps: list = field(default_factory=list)       # all that were tried, the most worth first
    code_on_one: int = 0

    @property
    def now(self):
        return self.facts.seen

    @property
    def best(self):
        """Where all threads run its code all the time, but for an interpreter's."""
        facts = self.facts
        code = self.code_on_one + (facts.usable - 1) * interpreted_time(facts)
        least = facts.now * facts.least_time(code) * facts.target / (facts.own_time or 1)
        return min(facts.now, int(least))


def as_won_back(facts, found, steps):
    """What the shape lost is of the kind of the change that wins back most of it."""
    best = best_of([step for step in steps if step.change and step.kind in (*OF_SHAPE, "undeferred")])
    pool = sum(loss.time for loss in found if loss.kind in OF_SHAPE)
    if not best or facts.own_share(pool) * POOL > best.gain / max(facts.now, 1):
        return found
    return merged([Loss(best.kind, best.place, loss.time) if loss.kind in OF_SHAPE else loss for loss in found])


def matching(step, found):
    """The loss that a step wins back."""
    same = [loss for loss in found if loss.kind == step.kind and not is_interpreter(loss.place)]
    return next((loss for loss in same if loss.place == step.place), same[0] if same else None)


def taken_by_others(facts, found):
    """The loss to other programs, where it is much: what the program lost itself is reported of the rest."""
    machine = sum(loss.time for loss in found if loss.kind == "machine")
    return machine if facts.share(machine) >= BUSY else 0


def with_alike(loss, found):
    """Serial code is one cause, wherever it runs, and so are tasks that run immediately: at its place it is named, and
    all of it counts but an interpreter's, which is one by itself."""
    if loss.kind not in ("serial", "undeferred") or is_interpreter(loss.place):
        return loss
    return loss._replace(time=sum(one.time for one in found if one.kind == loss.kind and not is_interpreter(one.place)))


def with_interpreter(facts, found, causes):
    """What an interpreter ran comes first where no other cause lost more."""
    least = max([least_of(facts, found, "serial")] + [loss.time for loss in causes[:1]])
    return [loss for loss in found if is_interpreter(loss.place) and loss.time >= least] + causes


def causes_of(facts, found, steps, code):
    """The first is that of the step that is worth most, and a second one where it may bring a tenth of the run's time,
    as has to the first one on a busy machine or of an efficient program, or where more is lost to it in several places.
    Where the program has none of its own it is the machine, and what the program did in the rest of the time."""
    out, seen = [], set()
    ran = facts.own_time - sum(loss.time for loss in found if loss.kind in NO_CAUSE)
    is_efficient = code >= EFFICIENT * ran
    for step in steps:
        loss = matching(step, found)
        loss = loss and with_alike(loss, found)
        if not loss or step.kind in seen or loss.time < least_of(facts, found, step.kind):
            continue
        is_more = out and loss.time > out[0].time
        if step.worth >= SECOND * facts.now or is_more or not (out or facts.taken or is_efficient):
            out.append(loss)
            seen.add(step.kind)
    if out:
        return with_interpreter(facts, found, out)[:2]
    named = [with_alike(loss, found) for loss in found if loss.kind in BY_KIND and loss.kind != "machine"]
    largest = [loss for loss in named if loss.time >= least_of(facts, found, loss.kind)]
    lost = not is_efficient and not facts.taken
    reported = with_interpreter(facts, found, [loss for loss in largest if not is_interpreter(loss.place)][:lost])
    if reported:
        return reported[:1] + [loss for loss in reported[1:2] if facts.own_share(loss.time) >= SECOND]
    is_machine = facts.share(facts.taken) >= BY_KIND["machine"].least
    machine, rest = [Loss("machine", "", facts.taken)] * is_machine, Loss("efficient", "", ran - code)
    return machine + [rest] * (not is_machine or is_efficient)


def diagnose(facts, bench=None):
    """`bench` tries changes of the text; without it there are only bounds. Of a run on one thread no cause is named: it
    says nothing of more threads."""
    found = losses(facts)
    code, facts.taken = code_on_one(facts, found), taken_by_others(facts, found)
    if facts.target == 1:
        return Diagnosis(facts, found, code_on_one=code)
    steps = bounds(facts, facts.now, found, bench)
    if bench:
        before = bench.end([])
        steps += [step_of(facts, bench.seen, facts.now, before, one) for one in bench.tries(bench.candidates())]
    steps = sorted(steps, key=lambda step: -step.worth)
    found = as_won_back(facts, found, steps)
    steps = [step for step in steps if step.gain > 0]
    causes = causes_of(facts, found, steps, code)
    if not any(BY_KIND[loss.kind].is_of_program and not is_interpreter(loss.place) for loss in causes):
        return Diagnosis(facts, found, causes, code_on_one=code)
    first = best_of(steps)
    if first and bench:
        first = as_scheduled(facts, bench, first)
    plan = steps_after(facts, bench, found, first, steps) if first and bench else [first] if first else []
    plan = (plan[:1] + on_one(facts, first) + plan[1:])[:STEPS] if first else plan
    return Diagnosis(facts, found, causes, plan, steps, code)
