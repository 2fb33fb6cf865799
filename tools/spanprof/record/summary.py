"""All that is known of a recording, in lines: what spanprof printed, quotients of that, and what the text's head tells.

A person reads it to decide about a program, and what is proved is proved of the text. So each line that says `proved`
says of what, and where the head tells that the text is not the program the line says that in its place.
"""
from array import array
from itertools import repeat

from spanprof import client
from spanprof.answers import places
from spanprof.client import proved
from spanprof.command import Fault
from spanprof.diagnosis.facts import off_by_segment
from spanprof.head import (CLOCKS, OTHERWISE, against_parallelism, against_span, gain_may_be_less, gain_may_be_more,
                           grouped, is_divided, is_of_one_thread, is_partial, lasting, least_end, lock_binds,
                           part_of_program, pieces_words, share_covered, tasks_made, tenths, why_not_of_more_threads,
                           with_function)
from spanprof.record.run import counter_words
from spanprof.recording import program_of
from spanprof.report.figures import Units, rounded_down, rounded_up

LEAST = 0.01    # of the work, or of the program's time, from which on a part of it is reported
MOST_TOLD = 3
UNLIKE = 2      # times the median, from which on the longest is reported
THREADS = (2, 4, 8, 16)
MOST_PLACES = 3
LESS_HELD = "another run may hold it for less (warnings)"


def on_path(answers, slept):
    """Of each of these segments in turn, its cost where it is on the critical path."""
    kinds = array("I", repeat(0, len(answers.code)))
    for kind, segment in enumerate(slept, 1):
        kinds[segment] = kind
    of_kind = dict(zip(sorted(set(kinds)), *client.places(answers.path, kinds, ("path",))))
    return [of_kind[kind] for kind in range(1, len(slept) + 1)]


def asleep_in(recording, answers):
    """Of the work, and of the span, in the text's unit."""
    path, head = recording.file("off"), answers.head
    if not path or head.clock == "cpu":
        return 0, 0
    unit = head.nanoseconds or 1
    slept = {segment: time // unit for segment, (time, _) in off_by_segment(path, head).items()
             if time >= unit and segment < len(answers.code)}
    if sum(slept.values()) < LEAST * answers.work:
        return 0, 0
    return sum(slept.values()), sum(map(min, slept.values(), on_path(answers, slept)))


def place_words(place):
    name = "the region at " + place.name if not place.name.startswith("a region") else place.name
    if len(place.regions) == 1:
        return name
    longest = ", the longest %s" % lasting(place.longest) if place.longest >= UNLIKE * place.median else ""
    return "%s, %d times, the median %s%s" % (name, len(place.regions), lasting(place.median), longest)


def program_line(program):
    """How the program's time divides, the greatest part first."""
    parts = [(program.outside, "outside of regions")] + \
        [(place.outermost, "in " + place_words(place)) for place in program.places]
    reported = sorted((part for part in parts if part[0] >= LEAST * program.elapsed), key=lambda part: -part[0])
    words = ["%.1f %% %s" % (100 * part / program.elapsed, where) for part, where in reported[:MOST_TOLD]]
    inside = max((place for place in program.places if place.is_inside), key=lambda place: place.total("code"),
                 default=None)
    if inside:
        words.append("inside others %s" % place_words(inside))
    if sum(part for part, _ in parts) >= (1 + LEAST) * program.elapsed:
        words.append("together more than all of it, since regions of several threads ran at once")
    return "%s: %s (measured)" % (lasting(program.elapsed), "; ".join(words))


def threads_of(head):
    return "%d thread%s" % (head.threads, "" if head.threads == 1 else "s") if head.threads else ""


def costs(number, head, down=False):
    """As people read them; what bounds is rounded down. `--json` has them in full."""
    return Units(head).shown(number, "down" if down else None).words.replace("µ", "u").replace("×", "x")


def title(answers):
    head = answers.head
    only = "" if head.covers_at_most else "only "
    parts = [answers.name, part_of_program(head), only + share_covered(head) if is_partial(head) else "",
             threads_of(head), " of ".join(filter(None, ["costs in %s" % head.unit, CLOCKS.get(head.clock)]))]
    return ", ".join(filter(None, parts))


def covers_line(head):
    """What of the program is in the text, and where the rest is."""
    if not share_covered(head):
        return "unknown share of the program's thread-time"
    rest = ", ".join("%s %s" % (costs(value, head), name) for name, value in head.not_covered.items() if value)
    return "%s in code%s (measured)" % (share_covered(head), "; not covered: " + rest if rest else "")


def tasks_line(answers):
    implicit = "%s implicit tasks" % grouped(answers.parts) if answers.parts else ""
    return "%s; %s segments (recorded)" % (
        ", ".join(filter(None, [grouped(tasks_made(answers)), pieces_words(answers.head), implicit])),
        grouped(answers.span_numbers["segments"]))


def runs_line(head):
    if head.runs:
        return "%d, and each cost is that of the run with the median elapsed time of those least disturbed "\
            "(measured)" % head.runs
    return "1; --runs 9 measures the variation"


def proved_of_text(head):
    part = ", a part of the program" if is_partial(head) else ""
    return "(%s)" % proved("proved of the recorded text" + part)


def with_spread(number, name, head, asleep):
    """A sum of the text, how much of it is sleep, and beside it the least and the most of several runs."""
    words, spread = costs(number, head, name == "span"), head.spread.get(name)
    slept = ", %s of it asleep" % costs(asleep, head) if asleep else ""
    if not spread:
        return words + slept
    return "%s (%s to %s in %d runs)%s" % (words, costs(spread[0], head), costs(spread[-1], head), head.runs, slept)


def work_line(answers, asleep):
    head = answers.head
    of = "one thread" if head.threads == 1 else threads_of(head) or "all threads"
    return "%s: code of %s (measured)" % (with_spread(answers.work, "work", head, asleep), of)


def span_line(answers, asleep):
    head, why_not = answers.head, against_span(answers.head)
    number = with_spread(answers.span, "span", head, asleep)
    if why_not:
        return "%s: critical path of the recorded text; %s" % (number, why_not)
    return "%s: lower bound of the run time on any number of threads %s" % (number, proved_of_text(head))


def parallelism_line(answers):
    head, why_not = answers.head, against_parallelism(answers.head)
    number = rounded_up(answers.work, answers.span)
    if why_not:
        return "%s: work / span of the recorded text; %s" % (number, why_not)
    by_lock = "; %s by the lock held longest" % rounded_up(answers.work, head.most_held) \
        if (head.most_held or 0) > answers.span else ""
    return "%s: work / span, the greatest speedup on any number of threads %s%s" % (
        number, proved_of_text(head), by_lock)


def elapsed_line(answers, asleep):
    elapsed = answers.head.elapsed
    if not elapsed:
        return "unknown"
    threads = " on %s" % (threads_of(answers.head) or "all threads")
    slept = ", %.2f asleep" % (asleep / elapsed) if asleep else ""
    return "%s%s: %.2f of them busy on average%s (measured)" % (
        costs(elapsed, answers.head), threads, (answers.work - asleep) / elapsed, slept)


def threads_shown(answers):
    """The numbers of threads of which the text says something."""
    head = answers.head
    if is_of_one_thread(head):
        return []
    if is_divided(head):
        return [head.threads] if head.threads in answers.curve else []
    return THREADS


def at_most_line(answers, reported):
    """By `least`, and by the lock that was held the longest, which is measured and no part of what is proved."""
    head = answers.head
    gains = ", ".join("%d: %s" % (p, rounded_up(answers.work, least_end(answers, p))) for p in reported)
    if gain_may_be_more(head):
        why = "(of the recorded text; %s)" % (OTHERWISE % "more")
    elif any(lock_binds(answers, p) for p in reported):
        why = "(measured: by the time inside the lock held longest)"
    else:
        why = proved_of_text(head)
    return "speedup at most %s %s" % (gains, why)


def at_least_line(answers, reported):
    gains = ", ".join("%d: %s" % (p, rounded_down(answers.work, answers.curve[p]["bound"])) for p in reported)
    return "speedup at least %s for a greedy schedule; tied tasks can do worse %s" % (
        gains, proved_of_text(answers.head))


def threads_lines(answers):
    """What so many threads can give."""
    reported = threads_shown(answers)
    if not reported:
        return [why_not_of_more_threads(answers.head)]
    others = [why_not_of_more_threads(answers.head)] if is_divided(answers.head) else []
    lower = [] if gain_may_be_less(answers.head) else [at_least_line(answers, reported)]
    return [at_most_line(answers, reported)] + lower + others


def lock_lines(answers, least):
    """Where the most held lock allows less than `least`, an end that no run of the text passes."""
    inside, head = answers.head.most_held, answers.head
    if not inside or inside <= least:
        return []
    if gain_may_be_more(answers.head):
        return ["%s inside the lock held longest; %s (measured)" % (costs(inside, head), LESS_HELD)]
    return ["%s inside the lock held longest: speedup at most %s (measured)" % (
        costs(inside, head), rounded_up(answers.work, inside))]


def clock_lines(head):
    """Which part of the work was not on a processor all the time, or slept, by one clock beside the other."""
    reported = head.clocks_differ
    if not reported:
        return []
    return ["wall and processor time differ by more than 5 %% in %s %% of the work, by %s in all (measured)" % (
        tenths(reported["affected"], reported["work"]), costs(reported["by"], head))]


def place_lines(answers):
    try:
        found = places(answers)
    except Fault as why:    # out of memory, or spanprof_large is not found
        return ["left out: %s" % why]
    heaviest = [place for place in found if place.critical_cost][:MOST_PLACES]
    return ["%.1f %% of the span, %.1f %% of the work: %s (measured)" % (
        100 * place.critical_cost / answers.span, 100 * place.cost / answers.work,
        with_function(answers.head, place.name)) for place in heaviest]


def remark_lines(answers, news):
    head = answers.head
    return head.remarks + ["lock " + words for words in head.locks] + list(news) or ["none"]


def named(name, lines):
    """Lines under one name, which stands before the first."""
    return ["%-13s %s" % (name if i == 0 else "", line) for i, line in enumerate(lines)]


def summary(answers, news=(), others=(), account=(), program=None, asleep=(0, 0)):
    """`asleep` is how much of the work, and of the span."""
    return [title(answers)] \
        + named("program", [program_line(program)] if program and program.regions else []) \
        + named("covers", [covers_line(answers.head)]) \
        + named("tasks", [tasks_line(answers)]) \
        + named("runs", [runs_line(answers.head)]) \
        + named("work", [work_line(answers, asleep[0])]) \
        + named("span", [span_line(answers, asleep[1])]) \
        + named("parallelism", [parallelism_line(answers)]) \
        + named("elapsed", [elapsed_line(answers, asleep[0])]) \
        + named("both clocks", clock_lines(answers.head)) \
        + named("breakdown", account) \
        + named("threads", threads_lines(answers)) \
        + named("locks", lock_lines(answers, answers.curve[max(THREADS)]["least"])) \
        + named("span by place", place_lines(answers)) \
        + named("warnings", remark_lines(answers, news)) \
        + named("other ranks", others)


def other_region(answers):
    head = answers.head
    return "%s: work %s, span %s" % (", ".join(filter(None, (answers.name, part_of_program(head)))),
                                     costs(answers.work, head), costs(answers.span, head))


def all_lines(recording, answers, diagnosis, account=(), news=(), others=()):
    """All that is known of a run: the summary, what the time was lost to, and what the processor counted."""
    return summary(answers, news, others, account, program_of(recording.text), asleep_in(recording, answers)) + \
        named("losses", diagnosis.sum_lines() if diagnosis else []) + \
        named("counters", counter_words(recording.meta.get("counters") or {}))
