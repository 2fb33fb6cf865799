"""What the threads lost, divided among the kinds of causes, each part by place; the parts add up exactly.

Threads x elapsed time = code as on one thread + the losses.
"""
from typing import NamedTuple

from spanprof.diagnosis.calls import (A_FAULT, A_SAMPLE, AT_START, RUNTIME, allocating, begun, faults_again, in_system,
                                      lock_of_switches, most_allocating, of_interpreter, serial_places, shares,
                                      system_locking, system_time)
from spanprof.diagnosis.causes import BUSY, BY_KIND, SECOND
from spanprof.diagnosis.places import A_START, AROUND_REGIONS, OF_THREADS, OWN, SERIAL, SHARE
from spanprof.program_text import BEGINNING, TURNS, where

SMALL = 5000            # nanoseconds of code in a task, below which creating and starting it costs much beside it
A_TASK = 10000          # nanoseconds that each thread loses at most by making, waking for and starting one task
A_TAKING = 1000         # nanoseconds that taking a chunk of a loop may cost
A_CREATION = 1000       # nanoseconds: a thread with less code for each task mostly waits for the runtime to create it
MANY = 8                # tasks for each thread, from which on to make them may cost much
# Of what other programs took, by which a loss of the program itself may be off. Of fifteen recordings, 13 to 90 % busy,
# 0 named three wrong causes, 0.05 two, 0.1 one; 0.2 none, and lost a right one.
UNSURE = 0.1
MUCH = 0.1              # of the run's time, from which on handling tasks may be what is lost
UNEVEN = 1.5            # of the average piece: from which on the largest one is uneven
STARTED = 5000000       # nanoseconds that a program and its runtime take to start
SIBLINGS = 2            # times as much that code costs at most where two threads share a core
BEYOND_CACHES = 1 << 27     # bytes
OF_ITS_LINE = 7 / 8     # of the uses of numbers of 8 bytes one after the other, those whose line was used before
SAME = 0.1              # of a cost, by which runs of the same code differ
UNSHARED = 0.02         # of the samples of code, below which it uses no line that other threads use
NO_CAUSE = ("recorder", "startup")
CROWDED = ("too_many_threads", "affinity")      # threads share processors
FINE = ("small_tasks", "creation")      # of all tasks together
OF_WAITS = ("small_tasks", "small_regions", "exclusion", "system", "sleep", "spin", *CROWDED)
OF_SHAPE = ("too_few_tasks", "imbalance", "dependence", "wait")


class Loss(NamedTuple):
    kind: str
    place: str
    time: int       # of threads, in nanoseconds


def divided(total, weights):
    """The total in whole numbers by weight, which add up to it."""
    whole, out, given, seen = sum(weights.values()), {}, 0, 0
    for name, weight in weights.items():
        seen += weight
        out[name] = total * seen // whole - given if whole else 0
        given += out[name]
    return out


def by_place(kind, total, weights):
    """Losses of one kind, by the weights of places, or of no place where none is known."""
    if not sum(weights.values()):
        return [Loss(kind, "", total)]
    return [Loss(kind, place, time) for place, time in divided(total, weights).items()]


def heaviest(facts):
    """The tasks with the most code, or the code with the most where there are none."""
    tasks = [place for place in facts.places.values() if place.tasks]
    return max(tasks or facts.places.values(), key=lambda place: place.cost, default=None)


def heaviest_name(facts):
    place = heaviest(facts)
    return place.name if place else ""


def at_heaviest(facts):
    return {heaviest_name(facts): 1}


def at_serial(facts):
    """What ran while threads had nothing to run, where that is not known: without tasks it is the code between regions
    that lasts longest."""
    most = max([] if facts.has_tasks else serial_places(facts), key=lambda place: place.cost, default=None)
    return {most.name if most else "": 1}


def mostly_small(facts):
    """Whether the code of an average task is so short that creating it costs much, and deferred tasks so many that it
    counts: others cost little more than a call."""
    tasks = deferred(facts)
    is_short = tasks > MANY * facts.threads and 0 < average_task(facts) < SMALL
    return is_short and tasks * A_TASK > MUCH * facts.elapsed


def deferred(facts):
    """How many tasks are."""
    return facts.tasks - sum(place.undeferred for place in facts.places.values())


def made_tasks(facts):
    """The places of the tasks that the program makes."""
    return [place for place in facts.places.values() if place.tasks and place.kind not in (SHARE, OF_THREADS)]


def average_task(facts):
    """Nanoseconds of code in one of them."""
    made = made_tasks(facts)
    tasks = sum(place.tasks for place in made)
    return sum(place.cost for place in made) // tasks if tasks else 0


def finest_name(facts):
    """The tasks of which there are most: what creating tasks costs goes by their number."""
    most = max(made_tasks(facts), key=lambda place: place.tasks, default=heaviest(facts))
    return most.name if most else ""


def is_maker(place):
    """Whether it is code of a thread, in no task, that makes tasks one after the other."""
    return place.is_creating and place.kind in (SERIAL, OF_THREADS) and not place.tasks


def makers(facts):
    """The places of code that makes tasks one after the other, and begins none."""
    return [place for place in facts.places.values() if place.is_creating and not place.tasks]


def creating(facts):
    """What code between two creations took, where it is so short that it is mostly the runtime's."""
    return sum(place.cost for place in makers(facts) if place.cost < A_CREATION * place.pieces)


def made_by_one(facts):
    """The places of such code of threads, where one thread makes nearly all tasks; else none."""
    own = list(filter(is_maker, makers(facts)))
    made, all_made = (sum(place.pieces for place in some) for some in (own, makers(facts)))
    return own if made > MANY * facts.threads and 10 * made > 9 * all_made else []


def keeps_waiting(facts):
    """Whether one thread makes nearly all tasks, and its own code for each lasts as long as the others take for one."""
    own = made_by_one(facts)
    made, alone = (sum(numbers) for numbers in ((place.pieces for place in own), (place.cost for place in own)))
    return alone > A_CREATION * made and (facts.threads - 1) * alone > average_task(facts) * made


def fine_kind(facts):
    """Tasks that cost little more than to make them are too small, whoever makes them."""
    return "creation" if keeps_waiting(facts) else "small_tasks"


def kind_of_task(facts, place):
    """By the shape alone, where tasks of a place kept the other threads idle."""
    if not facts.has_tasks:
        return "serial"
    if 2 * place.undeferred > place.tasks > 0:
        return "undeferred"
    if (is_in_a_row(place) or holds_neighbours(place)) and place.tasks > facts.threads:
        return "dependence"
    is_uneven = place.tasks >= facts.threads and place.largest > UNEVEN * place.average
    return "imbalance" if is_uneven else "too_few_tasks"


def is_in_a_row(place):
    """Whether most tasks of a place write the same item, or the same one as the task that was made before them."""
    shared = place.most_written
    return shared is not None and 2 * max(place.items[shared], place.again) > place.tasks


def holds_neighbours(place):
    """Whether tasks of a place write what their neighbours have at another position of the clause."""
    return sum(place.items[item] for item in place.moving) > place.tasks


def kind_of_starved(facts, name):
    """Why the other threads had nothing to run while this code ran."""
    place = facts.places.get(name)
    if not place:
        return kind_without_place(facts) or ("too_few_tasks" if facts.has_tasks else "serial")
    if place.kind in (SHARE, OF_THREADS) and begins_often(facts, place):
        return "small_regions"
    if place.kind == SHARE:
        return "loop_schedule"
    if is_maker(place) and (keeps_waiting(facts) or mostly_small(facts)):
        return fine_kind(facts)
    if place.tasks > MANY * facts.threads and keeps_waiting(facts):
        return "creation"
    if place.kind == OF_THREADS and place.name.startswith(OWN) and place.has_several:
        return "loop_schedule"
    return "serial" if place.kind in (SERIAL, OF_THREADS) else kind_of_task(facts, place)


def kind_without_place(facts):
    """Why threads were idle, where no times of the run say when: by all of its tasks."""
    if keeps_waiting(facts) or mostly_small(facts):
        return fine_kind(facts)
    place = heaviest(facts)
    is_cut = place and 2 * place.undeferred > place.tasks > 0
    return "undeferred" if is_cut and deferred(facts) <= MANY * facts.threads else ""


def begins_often(facts, place):
    """Whether it is code of many regions, none of which lasts longer than a thread may take to start."""
    at = where(place.at) or place.at
    return any(region.place == at and region.times > MANY and region.elapsed < A_START * region.times
               for region in facts.regions + facts.inner)


def kind_of_delayed(facts, name):
    """Why a thread idled though this code was ready."""
    place = facts.places.get(name)
    if kind_of_preempted(facts) != "machine":
        return kind_of_preempted(facts)
    if not place and often_begun(facts):
        return "small_regions"
    if place and is_divided(place):
        return "loop_schedule"
    if place and place.exclusive:
        return "exclusion"
    if not place:
        return kind_without_place(facts) or "machine"
    return fine_kind(facts) if keeps_waiting(facts) or mostly_small(facts) else "machine"


def is_divided(place):
    """Whether it is code of turns or sections, and not of a region inside them."""
    return place.kind == SHARE and not place.name.startswith(AROUND_REGIONS)


def preempted_share(facts, name):
    """Of the time that code lasted."""
    place, off = facts.places.get(name), facts.preempted_by.get(name, 0)
    return off / (place.cost + off) if place and off else 0.0


def off_while_waiting(facts):
    """Of the time in which threads were delayed or at locks, the share for which others had the processor: the run's
    processor time, without that of code, is less by so much. Threads that block by themselves have none either, but
    those that do not are preempted no more than code is."""
    usage, code = facts.usage or {}, facts.code + facts.in_library
    waiting = facts.delayed + facts.at_locks - facts.in_library
    if not (usage and waiting and facts.preempted):
        return 0.0
    on = (usage.get("user_ns") or 0) + (usage.get("system_ns") or 0) - code - facts.recorder
    return min(facts.preempted / (code + facts.preempted), 1 - min(max(on, 0), waiting) / waiting)


def delayed_off_share(facts, name):
    return max(off_while_waiting(facts), preempted_share(facts, name))


def beyond_uneven(facts, name, time):
    """Threads wait at the end of divided code for those with more of it. What they wait longer is due to what held
    these up: other programs, and locks."""
    off, locks = facts.preempted, facts.at_locks - facts.in_library
    beyond = max(0, time - facts.places[name].uneven) if off + locks else 0
    part = beyond * locks // max(off + locks, 1)
    return {("lock", lock_name(facts.locks[0]) if part and facts.locks else name): part,
            (kind_of_preempted(facts), name): beyond - part}


def asleep_share(facts, name):
    """Of the time that code lasted."""
    place, slept = facts.places.get(name), facts.asleep_by.get(name, 0)
    return slept / max(place.cost, slept) if place and slept else 0.0


def kind_of_sleep(facts, name):
    """Sleep includes the wait for a processor after waking up: where other programs take processors, and no sample has
    a call that waits, it is due to them. Threads also sleep, in no call, while others change the program's memory."""
    is_busy = facts.preempted > BUSY * (facts.code + facts.preempted)
    if facts.calls.ran and name not in facts.calls.slept and A_FAULT * faults_again(facts.usage or {}) > facts.asleep:
        return "system"
    return kind_of_preempted(facts) if is_busy and facts.calls.ran and name not in facts.calls.slept else "sleep"


def starved_off_share(facts, name):
    """Of the time for which threads had nothing to run but this code; where no more is known, as much as of it."""
    if not facts.starved_off:
        return preempted_share(facts, name)
    return facts.starved_off.get(name, 0) / max(facts.starved_by.get(name, 0), 1)


def add_idle(kinds, by, kind_of, facts, off_share, for_sleep=False):
    """To the losses `kinds`, the idle time `by` place. While code was preempted, those that were idle for it waited for
    the machine too; while it slept, for what it slept for, where they had nothing else to run."""
    for name, time in by.items():
        part, kind = int(time * off_share(facts, name)), kind_of(facts, name)
        slept = int((time - part) * asleep_share(facts, name)) if for_sleep else 0
        rest = time - part - slept
        beyond = beyond_uneven(facts, name, rest) if kind == "loop_schedule" else {}
        for key, lost in (((kind_of_preempted(facts), name), part), ((kind_of_sleep(facts, name), name), slept),
                          *beyond.items(), ((kind, name), rest - sum(beyond.values()))):
            kinds[key] = kinds.get(key, 0) + lost


def idle_losses(facts):
    """Of threads that ran no code, with those that the run could have had and did not."""
    kinds, missing = {}, missing_threads(facts)
    starved = facts.starved + (facts.target - facts.threads) * facts.elapsed
    short = min(sum(missing.values()), starved + facts.delayed)     # a small team leaves work ready, as pieces of loops
    short_delayed = short * facts.delayed // max(starved + facts.delayed, 1)
    starved -= short - short_delayed
    add_idle(kinds, divided(starved, facts.starved_by or at_serial(facts)), kind_of_starved, facts, starved_off_share,
             for_sleep=True)
    delayed = divided(facts.delayed - short_delayed, facts.delayed_by or {"": 1})
    starting = starting_times(facts, delayed)
    add_idle(kinds, starting, lambda *_: "small_regions", facts, delayed_off_share)
    add_idle(kinds, {name: time - starting[name] for name, time in delayed.items()}, kind_of_delayed, facts,
             delayed_off_share)
    return start_of(facts, [Loss(*key, time) for key, time in kinds.items()]) + \
        by_place("too_few_threads", short, missing)


def starting_times(facts, delayed):
    """Of the delays by place, those while regions start and end: what a runtime takes, and what other programs did not
    run for meanwhile."""
    found = {name: int(time * starting_share(facts, name)) for name, time in delayed.items()}
    longer = sum(delayed[name] - time for name, time in found.items() if time)
    unseen = 1 - facts.others / longer if facts.others is not None and longer > facts.others else 0
    return {name: time + int(unseen * (delayed[name] - time)) * bool(time) for name, time in found.items()}


def starting_share(facts, name):
    """Of the time for which threads were delayed at a place: as many regions start and end there."""
    place = facts.places.get(name)
    is_often = place and place.pieces > MANY * facts.threads and kind_of_preempted(facts) == "machine"
    return facts.starting_by.get(name, 0.0) if is_often else 0.0


def most_often(facts, found):
    """The region that lost most by starting and ending."""
    times = {}
    for loss in found:
        if loss.kind == "small_regions" and loss.place:
            at = facts.places[loss.place].at
            times[at] = times.get(at, 0) + loss.time
    return max(times, key=times.get, default=often_begun(facts))


def often_begun(facts):
    """The region that takes most of the run, and each time no longer than a thread may take to start."""
    return next((region.place for region in facts.regions if region.times > MANY and
                 2 * region.elapsed > facts.elapsed and region.elapsed < A_START * region.times), "")


def missing_threads(facts):
    """By region: the time of threads that its teams did not have, nor those of regions inside it. What these lack
    counts only as far as the run was asked for as many."""
    wanted, found = min(facts.usable, facts.asked or facts.usable), {}
    for region in facts.regions:
        missing = sum(max(0, wanted - threads) * elapsed for threads, elapsed in region.sizes.items()) - region.added
        if missing > 0:
            found[region.place] = missing
    return found


def preempt_each_other(facts):
    """Whether more threads than processors do for half of the time in which they are preempted: as long as they use all
    processors, so many of them wait."""
    more, usage = facts.threads - (facts.processors or facts.threads), facts.usage or {}
    used = (usage.get("user_ns") or 0) + (usage.get("system_ns") or 0)
    return more > 0 and (not used or 2 * used * more >= facts.preempted * facts.processors)


def kind_of_preempted(facts):
    """Threads that share a processor preempt each other too: then other programs used less than what they waited
    for."""
    if preempt_each_other(facts):
        return "too_many_threads"
    is_idle = facts.others is not None and facts.preempted - facts.others > BUSY * (facts.code + facts.preempted)
    return "affinity" if is_idle else "machine"


def off_losses(facts):
    """In the midst of code, but not in it: at locks, asleep, off the processor."""
    locks = {lock_name(lock): lock.waited for lock in facts.locks}
    off = int((facts.at_locks - facts.in_library) * off_while_waiting(facts))
    return by_place("lock", facts.at_locks - off, locks) + [Loss(kind_of_preempted(facts), "", off)] + \
        [Loss("startup", "", loss.time) if loss.place == AT_START else
         loss._replace(kind=kind_of_sleep(facts, loss.place))
         for loss in by_place("sleep", facts.asleep, facts.asleep_by or at_heaviest(facts))] + \
        by_place(kind_of_preempted(facts), facts.preempted, facts.preempted_by)


def loading(facts):
    """Of the code before all constructs, that before the program's first function: samples begin when the system has
    loaded the recorder, and see all of the program's own but for a sample at either end."""
    seen = sum(sum(found.get(BEGINNING, {}).values()) for found in (facts.calls.ran, facts.calls.slept))
    return begun(facts) - 1000 * (seen + 2 * A_SAMPLE) if facts.calls.ran else 0


def share_of_start(facts):
    """Of the code before all constructs, what the program and its runtime need to start."""
    return min(1.0, max(STARTED, loading(facts)) / max(begun(facts), 1)) if facts.whole else 0.0


def start_of(facts, losses_found):
    """Of the losses while that code ran, those of the start."""
    share, out = share_of_start(facts), []
    for loss in losses_found:
        part = int(loss.time * share) if (loss.kind, loss.place) == ("serial", BEGINNING) else 0
        out += [loss._replace(time=loss.time - part), Loss("startup", "", part)]
    return out


def dearer(facts):
    """By place, what its code cost beyond what it did on one thread; or where that is not known at most, by samples of
    what threads contend for."""
    one = facts.cost_on_one
    if one is not None:
        return {name: max(0, place.cost - one[name]) for name, place in facts.places.items() if name in one}
    return by_samples(facts, facts.calls.shares)


def by_samples(facts, sampled):
    """By place, what the lines of these samples cost."""
    return {name: int(facts.places[name].cost * min(1, sum(lines.values()) / sum(facts.calls.ran[name].values())))
            for name, lines in sampled.items() if name in facts.places and name in facts.calls.ran}


def striding(facts):
    """By place, of its code the time in loops that use a new cache line for each element, but for the one element in so
    many for which they need it."""
    return {name: int(OF_ITS_LINE * cost) for name, cost in by_samples(facts, facts.calls.strides).items()}


def slowed_lines(facts, name, uses):
    """What the lines of a place took, by samples, that use memory so: what else stands in them may wait too."""
    used, at, ran = (found.get(name, {}) for found in (uses, facts.calls.at, facts.calls.ran))
    took, whole = sum(at.get(line, 0) for line in used), sum(ran.values())
    return int(facts.places[name].cost * min(1, took / whole)) if whole and name in facts.places else 0


def is_bandwidth(facts, name):
    """Whether code costs so much more than on one thread since all use the memory at once: more than two threads of one
    core slow each other, with more memory than caches hold, and in lines that no two threads use."""
    place, alone = facts.places.get(name), (facts.cost_on_one or {}).get(name)
    return bool(place and alone) and is_large(facts) and place.cost > SIBLINGS * alone and is_unshared(facts, name)


def is_large(facts):
    """Whether it had more memory than caches hold."""
    return ((facts.usage or {}).get("peak_bytes") or 0) >= BEYOND_CACHES


def is_unshared(facts, name):
    """Whether code was sampled, and hardly ever in lines that other threads use."""
    shared, ran = (sum(found.get(name, {}).values()) for found in (facts.calls.shares, facts.calls.ran))
    return bool(ran) and shared < UNSHARED * ran


def is_repeated(facts, name):
    """Whether it is as if each thread of a region ran all of their own code: all take the same time, together as many
    times what it costs on one thread. Code that shares lines, or may lack bandwidth, is none of it."""
    place, alone = facts.places.get(name), (facts.cost_on_one or {}).get(name)
    region = next((one for one in facts.regions if name == "%s at %s" % (OWN, one.place)), None)
    if not (place and alone and region) or region.threads < 2 or is_large(facts) or not is_unshared(facts, name):
        return False
    is_even = place.uneven < SAME * place.cost
    return is_even and abs(place.cost - region.threads * alone) < SAME * place.cost


def lock_name(lock):
    return lock.place or lock.kind


def calls_of_runtime(facts, name):
    """How often code calls the runtime, as far as that is known, and of which kind and place is what that takes."""
    place = facts.places[name]
    times = [(facts.chunks.get(where(name), [0])[0], "small_chunks", name)]
    times += [(lock.times, "lock", lock_name(lock)) for lock in facts.locks]
    if place.tasks and place.kind != SHARE or place.is_creating:
        times.append((facts.tasks, fine_kind(facts), finest_name(facts)))
    if place.kind == OF_THREADS and begins_often(facts, place):
        times.append((place.pieces, "small_regions", name))
    return times


def handling(facts):
    """By kind and place, what the runtime took of code, by samples: chunks of loops, locks, small tasks. Without them,
    as of texts of many chunks, taking short ones is up to half of it, and making small tasks all between two."""
    out = {}
    if not facts.calls.ran:
        out = {("small_chunks", "%s at %s" % (TURNS, at)): min(A_TAKING * times, facts.code // 2)
               for at, (times, _) in facts.chunks.items()}
    for name, ran in facts.calls.ran.items():
        share = shares(ran, in_system).get(RUNTIME.partition("@")[0], 0) if name in facts.places else 0
        if share:
            times, *loss = max(calls_of_runtime(facts, name))
            time = int(share * max(0, facts.places[name].cost - facts.asleep_by.get(name, 0)))
            if times * A_TASK > time:
                out[tuple(loss)] = out.get(tuple(loss), 0) + time
    fine, time = (fine_kind(facts), finest_name(facts)), creating(facts)
    if time:
        out[fine] = max(out.get(fine, 0), time)
    lock, time = lock_of_switches(facts), sum(system_locking(facts).values())
    if lock and lock.times * A_TASK > time:     # else locks that no thread waits for take it
        out["lock", lock_name(lock)] = time
    return out


def in_code_losses(facts):
    """Of what counts as code: in the kernel, in the allocator, in the runtime, spinning, at a new cache line for each
    element, and dearer than on one thread. What the allocator calls the kernel for is in both, so that with more has it
    all."""
    left, out = facts.code, []
    system, allocated = system_time(facts), sum(allocating(facts).values())
    spinning, wide = by_samples(facts, facts.calls.spins), striding(facts)
    dear = max(0, sum(dearer(facts).values()) - allocated)
    for kind, time, weights in (("system", system * (system > allocated), at_heaviest(facts)),
                                ("allocation", allocated * (system <= allocated), {most_allocating(facts): 1}),
                                *((kind, time, {place: 1}) for (kind, place), time in handling(facts).items()),
                                ("spin", sum(spinning.values()), spinning),
                                ("strides", sum(wide.values()), wide), ("memory", dear, dearer(facts))):
        part = min(time, left)
        left -= part
        out += by_place(kind, part, weights)
    return out


def crowded_region(facts):
    """That with the most threads, or those inside others that together have more; empty where none is known."""
    if facts.inner and facts.threads > max(region.threads for region in facts.regions):
        return max(facts.inner, key=lambda region: region.times).place
    return max(facts.regions, key=lambda region: region.threads).place if facts.regions else ""


def merged(found):
    """The largest first; parts of one kind and place are one."""
    together = {}
    for loss in found:
        together[loss.kind, loss.place] = together.get((loss.kind, loss.place), 0) + loss.time
    return sorted((Loss(*key, time) for key, time in together.items() if time), key=lambda loss: -loss.time)


def losses(facts):
    found = idle_losses(facts) + off_losses(facts) + in_code_losses(facts) + \
        [Loss("recorder", "", facts.recorder), Loss("startup", "", facts.outside)]
    missing = missing_threads(facts)
    one_place = {**dict.fromkeys(CROWDED, crowded_region(facts)),
                 **dict.fromkeys(FINE, finest_name(facts)),
                 "too_few_threads": max(missing, key=missing.get, default=""), "system": heaviest_name(facts),
                 "small_regions": most_often(facts, found)}
    known = {"undeferred": heaviest_name(facts)}      # without times too
    placed = [loss._replace(place=one_place.get(loss.kind, loss.place) or known.get(loss.kind, "")) for loss in found]
    return merged(of_denied(facts, of_barriers(facts, of_interpreter(facts, placed))))


def of_barriers(facts, found):
    """Losses, those at the ends of loops to the barriers there, as far as threads would not wait without these."""
    out = []
    for loss in found:
        place, share = facts.barriers.get(loss.place, ("", 0)) if loss.kind == "loop_schedule" else ("", 0)
        part = int(loss.time * share)
        out += [loss._replace(time=loss.time - part), Loss("barrier", place, part)]
    return out


def of_denied(facts, found):
    """What threads had to wait for code that a region inside another one would have divided is lost to its one
    thread."""
    out, left = [], sum(facts.denied.values())
    for loss in found if left else ():
        part = min(loss.time, left) if loss.kind in (*OF_SHAPE, "serial", "loop_schedule", "too_few_threads") else 0
        left -= part
        out += [loss._replace(time=loss.time - part)]
        out += [Loss("too_few_threads", max(facts.denied, key=facts.denied.get), part)]
    return out or found


def is_crowded(facts):
    """Whether threads lost much while others had their processors."""
    return any(loss.kind in CROWDED and facts.share(loss.time) >= BY_KIND[loss.kind].least for loss in losses(facts))


def useful_time(facts, found):
    """The threads' time without what no change of the program wins back."""
    return max(1, facts.whole_time - sum(loss.time for loss in found if loss.kind in (*NO_CAUSE, "machine")))


def least_of(facts, found, kind):
    """The least loss that is a cause: a share of the useful time. On a busy machine it is a tenth at least, and more of
    waits and time in the kernel, in which other programs may have a part; they have none in costs."""
    least = max(BY_KIND[kind].least, SECOND * bool(facts.taken))
    return least * useful_time(facts, found) + UNSURE * facts.taken * (kind in OF_WAITS)


def code_on_one(facts, found):
    """What is left of the threads' time: the program's code, as it is on one thread as far as that is known."""
    return facts.whole_time - sum(loss.time for loss in found)
