"""What is reported of a run on a terminal: at most eight lines of at most 100 columns."""
import re
from collections import Counter

from spanprof.diagnosis.calls import (NO_NAME, OF_SYSTEM, OFFSET, ONE_AT_A_TIME, SHARES, allocating, copying_at,
                                      has_many_faults, innermost, interpreted_share, is_interpreter, maps_memory,
                                      parallel_code, plain, together, words_of_interpreter)
from spanprof.diagnosis.causes import ABOUT, AT_BEST, BY_KIND, NAMES, SECOND
from spanprof.diagnosis.diagnose import holder
from spanprof.diagnosis.facts import Region
from spanprof.diagnosis.losses import (A_TASK, MANY, average_task, holds_neighbours, is_bandwidth, is_in_a_row,
                                       is_maker, losses, missing_threads, useful_time)
from spanprof.diagnosis.names import DIVIDED, place_of_sleep, sleeper, sooner, words_of_sleep
from spanprof.diagnosis.places import AFTER_REGION, OWN, SERIAL, SHARE
from spanprof.head import grouped, lasting
from spanprof.program_text import SECTION, where
from spanprof.source_lines import LONGEST, after_directive, line_of, statement_end

WIDTH, MOST_LINES = 100, 8
LABEL = 6
NO_FASTER = 1.1
MOST_SHARED = 2
ALIKE, MOST_REGIONS = 2, 3
MOST_INSIDE = 0.5      # of the time inside a lock, that a function takes which is named
LEFT = re.compile(r"\bomp_unset_(nest_)?lock\b|\bunlock\b|_unlock\b")
A_CHUNK = 50000        # nanoseconds that one lasts which is worth taking
LEAST_TOLD = 0.005     # of the threads' time, from which on a part of it is reported
MUCH_STOLEN = 0.02     # of the processors' time, from which on that of the machine's host is reported
TRIED = {
    "in-for-inout": "depend(in: {item}) at {at} if only read, or a copy for each",
    "read-only": "depend({item}) at {at} if only read",
    "drop-depend": "finer depend items at {at}, or none if no order is needed",
    "rename": "a ring of buffers for {written} at {several_at}",
    "drop-wait": "remove {waits} if no result is needed yet",
    "defer": "defer more tasks at {at}: change its if or final",
    "outside": "create the tasks of {at} inside parallel and single",
    "task": "make {where} a task of its own"}
ON_ONE = "one thread at {at} is faster: if or num_threads(1)"
REWRITES = "tasks of {where} wait until others have read {written}"
BOUNDS = {ABOUT: "about %s", AT_BEST: "%s"}     # the first of several holds for all
ONE_EACH = re.compile(r"schedule\s*\(\s*(\w+\s*:\s*)?(dynamic|(static|dynamic)\s*,\s*1)\s*\)", re.IGNORECASE)
ONE_BY_ONE = r"schedule\s*\(\s*(\w+\s*:\s*)?(dynamic|guided)"
SPLIT = {"serial": "parallelise {where}: loop or tasks", "imbalance": "divide the longest tasks at {where}",
         "too_few_tasks": "divide each task of {where} into {usable}",
         "finer": "create more tasks at {at}: a lower cutoff"}


def several(number, what):
    return "%s %s%s" % (grouped(number), what, "s" * (number != 1))


def words_of_place(facts, names, place):
    """Those of a place of code."""
    return {"tasks": several(place.tasks, "task"), "largest": lasting(place.largest),
            "average": lasting(int(place.average)), **words_of_items(names, place),
            "contended": words_of_memory(facts, names, place)}


def words_of_items(names, place):
    """What the tasks of a place hold to write, and how many of them."""
    shared = place.most_written
    if holds_neighbours(place) and not is_in_a_row(place):
        return {"item": "inout: " + names.read_only(place)[0], "many": "neighbours"}
    if place.shared_at and not is_in_a_row(place):
        return {"item": "inout: " + names.read_only(place)[0], "many": "all"}
    count = max(place.items[shared], place.again) if shared else 0
    return {"item": names.item(place, shared) if shared else "",
            "many": "all" if count == place.tasks else grouped(count)}


def words_of_memory(facts, names, place):
    """What its code costs more than on one thread, or by samples its lines that use memory which threads share."""
    alone = (facts.cost_on_one or {}).get(place.name)
    if alone:
        if names.is_repeated(place.name):
            return "each of %d threads seems to do all of %s: %.1f times what it costs on one" % (
                facts.threads, names.place(place.name), place.cost / alone)
        return "%s costs %.1f times as much on %d threads as on one: memory %s" % (
            names.place(place.name), place.cost / alone, facts.threads,
            "bandwidth" if is_bandwidth(facts, place.name) else "is contended")
    lines = lines_of(facts.calls.shares.get(place.name, Counter()))
    return "threads write the same cache lines at once: %s" % (lines or names.place(place.name))


def words_of_spinning(facts, names, name):
    """The lines that wait for another thread."""
    found = facts.calls.spins.get(name, Counter())
    return {"spins": lines_of(found) or names.place(name)}


def lines_of(sampled):
    """The few that most samples were at."""
    return joined(list(filter(None, (line_of(line) for line, _ in sampled.most_common())))[:MOST_SHARED])


def joined(lines):
    """Those of one file by their numbers: `sort.c:11, 12 and 15`."""
    of_file = {line.file: ["%d" % one.number for one in sorted(lines) if one.file == line.file] for line in lines}
    return " and ".join("%s:%s" % (file, in_words(numbers)) for file, numbers in of_file.items())


def in_words(several):
    """Such as `a, b and c`."""
    return " and ".join(filter(None, (", ".join(several[:-1]), *several[-1:])))


def words_of_schedule(names, name, place):
    """gcc's chunks are those that threads take one by one; no schedule divides an iteration. What is uneven in a region
    of gcc's code with one loop is that."""
    at, is_share = names.at(name), place and place.kind == SHARE
    directive = names.directive(name, place.at) if place else ""
    if few_turns(names.facts, name, place):
        return "collapse the loops at %s, or parallelise inside them" % at
    if not is_share and re.search(r"\bparallel\b", directive) and not DIVIDED.search(directive):
        loops = names.loops_inside(name)
        if len(loops) != 1:
            return "divide the longest work at %s, or start it first" % at
        at = "%s:%d" % loops[0]     # gcc's code divides it without a call
    if is_share and SECTION in name:
        return "smaller sections at %s, the longest first" % at
    if is_share and (names.facts.is_of_gcc or re.search(ONE_BY_ONE, directive)):
        return "smaller chunks at %s, the longest first" % at
    return "schedule(dynamic) at %s, or %s" % (at, "collapse loops" if may_be_few(place) else "smaller chunks")


def may_be_few(place):
    """Whether a loop of gcc's, whose turns nothing tells, may have hardly more of them than there are threads: another
    schedule divides none."""
    return place is not None and place.kind != SHARE and 2 * place.by_a_turn > place.uneven


def few_turns(facts, name, place):
    """Of a loop, and the threads that had them; None where they are more, or are not known."""
    return facts.few_turns.get(where(name)) if place and place.kind == SHARE else None


def words_of_division(facts, name, place):
    few = few_turns(facts, name, place)
    if few:
        return "too few iterations, %d on %d threads" % tuple(few)
    return "few iterations, or uneven ones" if may_be_few(place) else "its work is divided unevenly"


def words_of_kernel(facts, names, usage):
    """Page faults only where they are most of it."""
    if has_many_faults(facts) or maps_memory(facts):
        each = "task" if facts.tasks_in_regions else "iteration"
        copying, reuse = copying_at(facts), "reuse memory: no large malloc, mmap or free in each " + each
        smaller = "smaller firstprivate data at %s: a pointer, or shared" % names.at("task at " + copying)
        return {"kernel": "%s page faults" % grouped(usage.get("minor_faults") or 0) if has_many_faults(facts) else
                "mapping memory", "less_kernel": smaller if copying else reuse}
    return {"kernel": "system calls", "less_kernel": "fewer, larger system calls: use larger buffers"}


def words_of_run(facts, names):
    usage = facts.usage or {}
    used = (usage.get("user_ns") or 0) + (usage.get("system_ns") or 0)
    return {"threads": facts.threads, "processors": words_of_processors(facts), "usable": facts.usable,
            "all_tasks": grouped(facts.tasks), "average_task": lasting(average_task(facts)),
            "code": "%.0f" % min(100, 100 * facts.code / useful_time(facts, losses(facts))),
            "time": "the rest" if facts.taken else "the time",
            **words_of_kernel(facts, names, usage),
            "allocating": "%.0f" % (100 * sum(allocating(facts).values()) / max(parallel_code(facts), 1)),
            "system": "%.0f" % (100 * (usage.get("system_ns") or 0) / used if used else 0)}


def words_of_alone(facts, names, place):
    """How much of all serial code this code is, or, by samples, the function that it ran."""
    serial = [one for one in facts.places.values() if one.kind == SERIAL]
    whole, ran = sum(one.cost for one in serial), names.ran(place)
    part = place.cost * (1 - interpreted_share(facts, place.name))
    if place.kind != SERIAL or part == whole and not ran:
        return "the others wait"
    if ran:
        sampled = together(facts.calls.ran, [one.name for one in serial])
        part = whole * sum(time for calls, time in sampled.items() if ran.function in calls) / sum(sampled.values())
    return "%.0f %% of %s of serial code" % (100 * part / max(whole, 1), lasting(whole))


def words_of_creation(facts, names, name):
    """A thread whose own code for each task lasts longer than to make one does what the task could do."""
    makers = [place for place in facts.places.values() if is_maker(place)]
    most = max(makers, key=lambda place: place.cost, default=None)
    if not most or most.cost < A_TASK * most.pieces:
        return "larger tasks at %s, or a taskloop" % names.at(name)
    ran = names.ran(most)
    return "move %s into the task at %s" % (ran.function if ran else "the code before it", names.at(name))


def words_of_more(facts, names, name):
    """How a region gets more threads."""
    at, region = names.place(name), next((one for one in facts.regions + facts.inner if one.place == name), None)
    if name in facts.denied:
        return "allow nesting at %s: omp_set_max_active_levels(2)" % at
    return "ask for %d threads at %s%s" % (facts.usable, at, who_asked(facts, region) if region else "")


def who_asked(facts, region):
    """For fewer threads than the run could have had, as far as it is known."""
    if not region.asked or region.asked >= facts.usable:
        return ": OMP_DYNAMIC, OMP_THREAD_LIMIT" if region.asked else ": num_threads, OMP_NUM_THREADS"
    return ": the program asks for %d" % region.asked


def words_of_barriers(facts, names, name):
    """Of regions that take little time each, or of one with many barriers; and what to do."""
    region = next((one for one in facts.regions + facts.inner if one.place == name), Region(name, 0, 0))
    after, at = facts.places.get("%s at %s" % (AFTER_REGION, name)), names.place(name)
    if after and after.pieces > MANY * region.times:
        words = "%s at %s, %s apart: waiting at them"
        apart = lasting(region.elapsed // after.pieces)
        return {"short_regions": words % (several(after.pieces, "barrier"), at, apart),
                "longer_regions": "fewer barriers at %s: nowait, or larger loops" % at}
    alike = alike_regions(facts, region)
    at, times = lines_of_regions(names, alike), sum(one.times for one in alike)
    words, each = "%s at %s take %s each: starting them", lasting(sum(one.elapsed for one in alike) // times)
    return {"short_regions": words % (several(times, "region"), at, each),
            "longer_regions": "move parallel at %s out of the loop around it" % at}


def alike_regions(facts, region):
    """Those that are about as many and as short, and the region itself."""
    return [region] + [one for one in facts.regions if one.place != region.place and
                       one.times * ALIKE >= region.times and
                       one.elapsed * region.times <= ALIKE * region.elapsed * one.times]


def lines_of_regions(names, regions):
    """Of the first few."""
    lines = [line_of(names.place(one.place)) for one in regions[:MOST_REGIONS]]
    more = ", .." * (len(regions) > MOST_REGIONS)
    several_lines = joined(lines).replace(" and ", ", ") + more if all(lines) else ""
    return several_lines if len(lines) > 1 and several_lines else names.place(regions[0].place)


def is_confined(facts):
    """Whether the program may use only some of the machine's processors."""
    return bool(facts.of_machine and facts.processors) and facts.processors < facts.of_machine


def words_of_processors(facts):
    of = " of %d" % facts.of_machine if is_confined(facts) else ""
    return several(facts.processors or 0, "processor") + of


def words_of_fewer(facts):
    """Fewer threads, or more processors where there are some."""
    threads = "use " + several(facts.processors or 0, "thread")
    if is_confined(facts):
        return "allow more processors (taskset, cgroup), or %s" % threads
    return threads + ": num_threads or OMP_NUM_THREADS"


def words_of_team(sizes):
    """Of one region, or of several with teams of these sizes."""
    between = " or " if len(sizes) == 2 else " to "
    return "%d%s%s" % (sizes[0], between, several(sizes[-1], "thread")) if sizes[1:] else several(sizes[0], "thread")


def words_of_region(facts, names, name):
    """Of those that began at one place."""
    others = len(set(missing_threads(facts)) - {name})
    out = {"got": "", "others": " and in %s" % several(others, "other") if others else "",
           "more_threads": words_of_more(facts, names, name), **words_of_barriers(facts, names, name),
           "in_region": "in the region at " + names.place(name) if name else "in some region",
           "fewer": words_of_fewer(facts)}
    for region in facts.inner:
        if region.place == name:
            times = several(region.times, "region")
            # Without nesting one thread runs each: too little where fewer of them last at a time than threads can run.
            fewer = "no nesting at %s: omp_set_max_active_levels(1)" if region.together >= facts.usable else \
                "fewer threads at %s: num_threads"
            out.update(in_region="as %s at %s began inside others" % (times, names.place(name)),
                       fewer=fewer % names.at(name))
    for region in facts.regions + facts.inner:
        if region.place == name:
            out.update(got=words_of_team(sorted(region.sizes)))
    out["others"] += ": %d can run" % facts.usable
    if name in facts.denied:
        out.update(got="1 thread", others=": nested parallelism is off")
    return out


def first_digits(number):
    """Two of them, and zeros: chunks are counted where they began soon after others, so there are more."""
    unit = 10 ** max(0, len(str(number)) - 2)
    return number // unit * unit


def words_of_chunks(facts, name, place):
    """Of a loop's short chunks; and how many turns make one that is worth taking."""
    chunks, turns = facts.chunks.get(where(name), (0, 0))
    if not chunks or not place.cost:
        return {}
    most = max(1, turns // (MANY * facts.threads))
    return {"chunks": grouped(first_digits(chunks)), "a_chunk": lasting(place.cost // chunks),
            "of_turns": min(10 ** len(str(A_CHUNK * turns // place.cost)), most)}


def words_of_nowait(names, name):
    """At which loops of a region gcc's code does not say; the source may."""
    return "nowait at %s" % (name.startswith(OWN) and joined(names.loops_inside(name)) or names.at(name))


def less_locking(facts, names, lock, less):
    """Where all ordered code together is short, threads wait since a thread's iterations lie far apart in the order; or
    where they do not, since a long one holds up all after it."""
    if lock.kind != "ordered":
        return less + ": a copy for each thread"
    if 4 * lock.inside < facts.elapsed:
        has_one_each = any(ONE_EACH.search(directive) for _, directive in names.ordered_loops())
        change = "a loop of its own for %s, after it" if has_one_each else "schedule(static, 1) for the loop of %s"
        return change % names.place(lock.place)
    return less + ": compute before it"


def code_inside(names, lock):
    """The source from a lock's line to where it is left; empty where that is not known."""
    line = names.begin(lock.place, lock.place)
    lines = names.lines_of(line.file) if line else []
    if not line or not 0 < line.number < len(lines):
        return ""
    begin = after_directive(lines, line.number)
    last = statement_end(lines, begin) if lock.kind == "critical" else next(
        (here for here in range(begin, min(begin + LONGEST, len(lines)) + 1) if LEFT.search(lines[here - 1])), 0)
    return "\n".join(lines[line.number - 1:last])


def called_inside(facts, names, lock):
    """The function that takes most of the time inside a lock, by samples, and that the code there calls by its name."""
    of, code, found = plain(names.function_at(lock.place)), code_inside(names, lock), Counter()
    for calls, time in together(facts.calls.ran, facts.calls.ran).items() if of and code else ():
        for caller, called in zip(calls, calls[1:]):
            if plain(caller) == of:
                found[plain(called.partition(OF_SYSTEM)[0].removeprefix("IO_"))] += 1000 * time
    most = max(found, key=found.get, default="")
    is_there = most and re.search(r"\b%s\s*\(" % re.escape(most.rpartition("::")[2]), code)
    return most if is_there and MOST_INSIDE * lock.inside <= found[most] else ""


def words_of_lock(facts, names, name):
    """By what it is reported, how often it was entered or in what it is, and what to do."""
    reported = {"lock": names.place(name), "times": "", "less_locking": "do less in %s" % names.place(name)}
    for lock in facts.locks:
        if lock.function and lock.place == name:
            called = {"function": lock.function, "at": names.at(name)}
            return {"lock": "the lock inside {function}".format(**called), "times": "called at {at}".format(**called),
                    "less_locking": ONE_AT_A_TIME[lock.function] + " at {at}".format(**called)}
        if name in (lock.place, lock.kind):
            called = called_inside(facts, names, lock)
            less = reported["less_locking"] + " (%s)" % called * bool(called)
            reported.update(times=times_of(lock), less_locking=less_locking(facts, names, lock, less))
            break
    return reported


def words_of_suspect(facts, names):
    """What may make code slow on several threads, where nothing was measured of it."""
    if facts.cost_on_one is not None:
        return "; only less work helps"
    at, ran = names.suspect(), innermost(together(facts.calls.ran, facts.calls.ran))
    most = ", %.0f %% of it in %s" % (100 * ran.share, ran.function) if ran else words_of_line(facts)
    return ", with " + str(at) if at else most


def line_with_most(sampled):
    return max(sampled, key=sampled.get, default="")


def words_of_line(facts):
    """That in which code ran most, where no function has much of it."""
    at, ran = (together(found, found) for found in (facts.calls.at, facts.calls.ran))
    line, whole = line_with_most(at), sum(ran.values())
    if not whole or not line or at[line] < SHARES[-1] * whole:
        return ", as far as one run shows"
    return ", %.0f %% of it at %s" % (100 * at[line] / whole, line)


def instead(names, place, name):
    """What to write in place of what threads contend for."""
    if names.is_repeated(name):
        return "divide it among the threads of %s, or do it once: single" % names.at(name)
    if is_bandwidth(names.facts, name):
        return "touch the data of %s once: fuse or block loops" % names.at(name)
    suspect = names.suspect([place]) if place else None
    return suspect.instead if suspect else "a copy for each thread of what %s writes, or a reduction" % names.at(name)


def words(facts, names, name):
    """What a sentence may have, of a place, a wait, a lock or a region."""
    place = facts.places.get(name)
    sampled = facts.calls
    out = dict(words_of_run(facts, names), where=names.place(name), at=names.at(name), item="",
               sleeper=sleeper(names, name), sleeps_at=place_of_sleep(names, name),
               in_what=words_of_sleep(facts, name, sleeper(names, name)), tasks="", many="", largest="", average="",
               contended="", chunks="", a_chunk="", of_turns="",
               alone=words_of_interpreter(facts) if is_interpreter(name) else "the others wait",
               suspect=words_of_suspect(facts, names),
               shared=words_of_schedule(names, name, place), uneven=words_of_division(facts, name, place),
               strides_at=line_with_most(sampled.loops.get(name) or sampled.strides.get(name, {})) or names.at(name),
               nowait=words_of_nowait(names, name), less_creating=words_of_creation(facts, names, name),
               instead=instead(names, place, name),
               **words_of_region(facts, names, name), **words_of_lock(facts, names, name),
               **words_of_spinning(facts, names, name))
    if place:
        out.update(words_of_place(facts, names, place), alone=words_of_alone(facts, names, place),
                   **words_of_chunks(facts, name, place))
    return out


def times_of(lock):
    """Of a lock of the system only the waits are recorded."""
    return "%s%s times" % ("" if lock.kind in ("mutex", "rwlock") else "entered ", grouped(lock.times))


def lost_sentence(facts, names, loss):
    if not loss.place:
        loss = loss._replace(place=max(facts.places, key=lambda name: facts.places[name].cost, default=""))
    found = words(facts, names, loss.place)
    if loss.kind == "dependence" and loss.place in facts.rewriting:
        return REWRITES.format(written=written(facts, [loss.place]), **found)
    return BY_KIND[loss.kind].lost.format(**found)


def written(facts, places):
    """What tasks of these places write that others read."""
    return in_words(list(dict.fromkeys(item for name in places for item in facts.rewriting[name].items)))


def words_of_buffers(names, places):
    """What their tasks write that others read, and where."""
    lines = {names.begin(name, names.facts.places[name].at) for name in places}
    return {"written": written(names.facts, places), "several_at": joined(lines)}


def waits(names, found):
    """Several of one file by their lines."""
    lines = [names.begin(name, name) for name in found]
    if len(found) == 1 or None in lines or len({line.file for line in lines}) > 1:
        return " and ".join(map(names.place, found))
    return "the waits at " + joined(lines)


def kind_of_parts(step, place):
    """A task that goes on after it has created another one, and lasts, does itself what smaller tasks could do."""
    if place.tasks:
        return step.kind
    return "finer" if place.follows_creation else "serial"


def change_sentence(facts, names, step):
    """What to do, of a change that was tried or of a bound."""
    if step.kind == "small_regions" and step.threads == 1:
        return ON_ONE.format(at=names.at(step.place))
    if not step.change:
        return BY_KIND[step.kind].change.format(**words(facts, names, step.place),
                                                sooner=sooner(facts, step.place, step.threads))
    kind, place = step.change.kind, step.change.place
    if kind == "split":
        return SPLIT[kind_of_parts(step, facts.places[step.place])].format(**words(facts, names, step.place))
    found = words(facts, names, step.place)
    if kind == "in-for-inout":
        item = names.item(holder(facts, place), ("inout", place))
        found["item"] = item.partition(": ")[2]
    if kind == "read-only":
        found["item"] = "in: " + ", ".join(names.read_only(facts.places[step.place]))
    found["waits"] = waits(names, [one.word for one in step.change.requests])
    found.update(words_of_buffers(names, step.change.places) if kind == "rename" else {})
    return TRIED["outside" if kind == "defer" and not facts.tasks_in_regions else kind].format(**found)


def shortened(text, width):
    return text if len(text) <= width else text[:width - 3].rstrip() + "..."


def after_words(step):
    """What the run takes after a step; where samples give no number, between which times it is likely."""
    if step.is_between:
        return "%s to %s" % (lasting(step.low), lasting(step.high))
    word = "" if step.change else "at best " if step.at_best else "about "
    return word + lasting(step.after)


def word_of_best(found):
    """What the time at best is, where what is lost may cost more than its own time, or less."""
    return min((BY_KIND[loss.kind].without for loss in found.causes), key=list(BOUNDS).index, default=AT_BEST)


def gain_words(step):
    return "%s -> %s" % (lasting(step.before), after_words(step))


def change_line(label, facts, names, step):
    gain = gain_words(step)
    room = WIDTH - LABEL - len(gain) - 2
    return "%-*s%-*s  %s" % (LABEL, label, room, shortened(change_sentence(facts, names, step), room), gain)


def speed_words(facts):
    """Against one thread, where that was timed."""
    one = facts.on_one
    if not one:
        return ""
    times = one / max(facts.seen, 1)
    reported = "no faster" if 1 / NO_FASTER < times < NO_FASTER else "%.1f times as fast" % times if times > 1 else \
        "%.1f times slower" % (1 / times)
    return ", %s on one: %s" % (lasting(one), reported)


def words_of_threads(facts):
    """Those of the run, and its time without what other programs took."""
    alone = ", %s undisturbed" % lasting(facts.now) if facts.now < facts.seen else ""
    return several(facts.threads, "thread") + (" of " + facts.runtime if facts.runtime else "") + alone


def first_line(found):
    facts = found.facts
    return "%s: %s on %s%s. At best %s." % (facts.program or "program", lasting(found.now), words_of_threads(facts),
                                            speed_words(facts), BOUNDS[word_of_best(found)] % lasting(found.best))


def lost_lines(found, names):
    """Behind what other programs took the rest has no share: it would be of another whole."""
    facts = found.facts
    for i, loss in enumerate(found.causes):
        share = "%2.0f %%" % (100 * facts.lost_share(loss)) if i == 0 or loss.kind != "efficient" else "    "
        yield shortened("%-*s%s  %s" % (LABEL, "lost" * (i == 0), share, lost_sentence(facts, names, loss)), WIDTH)


def loss_name(names, loss):
    return ": ".join(filter(None, [NAMES[loss.kind], names.place(loss.place) if loss.place else ""]))


def sum_lines(found, names):
    """The threads' time as a sum: code, what was lost by cause and place, and the rest."""
    facts = found.facts
    on_one = " as on one thread" if facts.cost_on_one else ""
    parts = [("code" + on_one, facts.share(found.code_on_one))] + \
        [(loss_name(names, loss), facts.share(loss.time)) for loss in found.losses]
    shown = [part for part in parts if abs(part[1]) >= LEAST_TOLD]
    rest = 1 - sum(share for _, share in shown)
    return ["%.1f %% %s (measured)" % (100 * share, name) for name, share in shown + [("the rest", rest)]]


def is_nameless(facts):
    """Whether most of the code that samples saw is in functions without names."""
    ran = together(facts.calls.ran, facts.calls.ran)
    return 2 * sum(time for calls, time in ran.items() if calls[-1].startswith(NO_NAME)) > sum(ran.values())


def unsure(found, names):
    """What one run cannot tell, or a program without the names of its functions."""
    facts, lost = found.facts, lost_lines(found, names)
    if is_nameless(facts) or any(OFFSET.search(word) for line in lost for word in line.replace(":", " ").split()):
        return "the names of its functions: build it with -g, or install its debug symbols"
    if facts.is_imported:
        return ""
    if facts.target == 1:
        return "what more threads would bring: record on more"
    if facts.cost_on_one is None and facts.true_one is None and facts.threads > 1:
        if facts.calls.shares and any(loss.kind == "memory" for loss in found.causes):
            return "what it costs on one thread: --full"
        at = names.suspect()
        return "whether %s it: --full" % (str(at) + " slows" if at else "atomics or shared memory slow")
    return ""


def sure_words(found):
    """How much of the program was seen, and how it went."""
    facts = found.facts
    starting = facts.own_share(sum(loss.time for loss in found.losses if loss.kind == "startup"))
    parts = [several(facts.runs, "run"),
             "recorder %.1f %%" % (100 * facts.share(facts.recorder)) if facts.recorder else "",
             "startup %.0f %%" % (100 * starting) if starting >= SECOND else "",
             "%.1f %% of the program seen" % (100 * facts.coverage) if facts.coverage is not None else "",
             "gains predicted" if any(step.change for step in found.plan) else "",
             "machine busy: %.0f %%" % (100 * facts.share(facts.taken)) if facts.taken else "",
             "its host took %.0f %%" % (100 * facts.stolen) if facts.stolen >= MUCH_STOLEN else ""]
    return list(filter(None, parts))


def sure_lines(found, names, more):
    """How much of it is known, and where the rest is."""
    rest = unsure(found, names)
    reported = "%-*s%s" % (LABEL, "sure", ", ".join(sure_words(found)))
    return [shortened(line, WIDTH) for line in filter(None, [
        reported, "%-*s%s" % (LABEL, "", "not known: " + rest) if rest else "",
        "%-*s%s" % (LABEL, "more", more) if more else ""])]


def note_lines(news):
    """The first of what went wrong with a recording, and how many more there are."""
    more = " (and %d more: --all)" % (len(news) - 1) if len(news) > 1 else ""
    return ["%-*s%s%s" % (LABEL, "note", shortened(news[0], WIDTH - LABEL - len(more)), more)] if news else []


def labels(plan):
    return ["or" if step.is_instead else "then" if i else "do" for i, step in enumerate(plan)]


def short_lines(found, names, more="", news=()):
    """`more` says where the rest stands, `news` what went wrong with the recording."""
    plan = [change_line(label, found.facts, names, step)
            for label, step in zip(labels(found.plan), found.plan)]
    lost = list(lost_lines(found, names))
    last = note_lines(list(news)) + sure_lines(found, names, more)
    return [shortened(first_line(found), WIDTH)] + lost + plan[:MOST_LINES - 1 - len(lost) - len(last)] + last
