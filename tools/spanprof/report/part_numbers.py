"""One table of numbers that the first screen has not: work, span, how busy the threads were; and the warnings."""
from spanprof.head import (CLOCKS, against_parallelism, against_span, gain_may_be_less, least_end, lock_binds,
                           share_covered, speaks_of, tasks_made, why_not_of_more_threads)
from spanprof.report.figures import MEASURED, PROVED, badge
from spanprof.report.markup import join, note, section, table, tag
from spanprof.time_breakdown import proved_sums

PARTS = {"code": "in your code", "recorder": "in the recorder", "preempted": "preempted in code",
         "asleep": "asleep in code", "at locks": "waiting for locks", "delayed": "scheduling delay",
         "starved": "idle", "outside": "startup and shutdown"}
WITHOUT_A_RECORDER = "preempted in code, or in the recorder"


def given(*words):
    return tag("span", *words, class_="given")


def recorded_words(view):
    """One line that says what the text is a recording of."""
    head = view.answers.head
    clock = CLOCKS.get(head.clock, head.clock)
    unit = "costs in %s of %s" % (view.unit.replace("× ", ""), clock) if head.unit else \
        "costs as declared in the text, not measured"
    runs = "the one of %d runs with the median elapsed time of those least disturbed" % head.runs if head.runs else ""
    parts = ["recorded from %s" % head.program if head.program else "",
             "the whole program: %s" % head.whole if head.whole else "",
             "the parallel region at %s" % head.region if head.region else "", head.date,
             "%d threads" % head.threads if head.threads else "", runs, unit]
    return ", ".join(filter(None, parts))


def spread(view, name):
    """Between which numbers several runs were."""
    head = view.answers.head
    if name not in head.spread:
        return ""
    least, _, most = head.spread[name]
    return given("%s to %s in %d runs" % (view.units.shown(least).words, view.units.shown(most).words, head.runs))


def of_the_text(view):
    """Rows of a name, a number, its kind, and what speaks against it as the program's."""
    answers, show, head = view.answers, view.figures, view.answers.head
    yield "work, all costs", show.time(answers.work, "span work", PROVED), view.cost_kind, spread(view, "work")
    yield "span, the longest chain", show.time(answers.span, "span span", PROVED), PROVED, join(filter(None, [
        spread(view, "span"), against_span(head)]), "; ")
    yield "parallelism, work / span: the greatest speedup", show.times_at_most(
        answers.work, answers.span, "span work / span span", PROVED), PROVED, against_parallelism(head)
    yield "tasks", show.number(tasks_made(answers), "tasks - parts - pieces", view.shape_kind), view.shape_kind, ""
    yield "segments", show.number(answers.span_numbers["segments"], "span segments", view.shape_kind), \
        view.shape_kind, ""


def on_the_threads(view):
    """What the threads of the recording, or those asked for, can make of the text."""
    answers, show, threads, head = view.answers, view.figures, view.answers.threads, view.answers.head
    if threads == 1:
        return
    if not speaks_of(head, threads):
        yield given("speedup on %d threads" % threads), "", PROVED, why_not_of_more_threads(head)
        return
    least = "head most held lock" if lock_binds(answers, threads) else "curve %d least" % threads
    yield given("speedup on %d threads, at most" % threads), show.times_at_most(
        answers.work, least_end(answers, threads), "span work / " + least, PROVED), PROVED, \
        "bound by the lock held longest" if lock_binds(answers, threads) else ""
    if not gain_may_be_less(head):
        yield given("speedup on %d threads, at least" % threads), show.times_at_least(
            answers.work, answers.curve[threads]["bound"], "span work / curve %d bound" % threads, PROVED), PROVED, \
            "of a greedy schedule; tied tasks can force a thread to idle"


def of_the_run(view):
    head, show = view.answers.head, view.figures
    if head.elapsed:
        yield "elapsed", show.time(head.elapsed, "elapsed", MEASURED), MEASURED, ""
        yield "threads busy, on average", show.number(view.answers.work / head.elapsed, "span work / elapsed",
                                                      MEASURED, 2), MEASURED, ""
    for point in view.true_times:
        yield given("true speedup on %d threads" % point.threads), show.number(
            point.speed_up, "scale %d speedup" % point.threads, MEASURED, 2), MEASURED, \
            given("%.2f to %.2f, without the recorder" % (point.least, point.greatest))
    if share_covered(head):
        yield "coverage", given(share_covered(head)), MEASURED, ""


def of_the_account(view):
    """How the threads' time divides."""
    found = view.account
    for part, value in found.parts.items() if found else ():
        name = WITHOUT_A_RECORDER if part == "preempted" and view.answers.head.clock == "cpu" else PARTS[part]
        if value:
            yield name, view.figures.share(value, found.whole, "account %s / account whole" % part.replace(" ", "-"),
                                           MEASURED), MEASURED, "of the threads' time"


def warnings(view):
    """What the recording lacks, as the text's own head tells it."""
    head = view.answers.head
    items = [tag("li", words) for words in head.remarks]
    items += [tag("li", "lock ", words, ". One thread at a time is inside.") for words in head.locks]
    return tag("div", tag("h3", "Warnings of the recording"), tag("ul", *items), class_="warnings given",
               role="note") if items else ""


def asked(view):
    """The commands whose answers the page shows; one line for all changed texts."""
    lines = [tag("code", line) for line in dict.fromkeys(view.answers.asked)]
    return note("Asked: ", join(lines, ", "), ". Each number is what one of these printed, or a sum, difference or "
                "quotient of such numbers; its tooltip says of which.")


def numbers_part(view):
    rows = [[name, value, badge(kind), more] for make in (of_the_text, on_the_threads, of_the_run, of_the_account)
            for name, value, kind, more in make(view)]
    sums = note(proved_sums(), ".") if view.account else ""
    return section("numbers", "Numbers and warnings", warnings(view),
                   tag("p", recorded_words(view), class_="note given"), table(["", "", "", ""], rows, numeric=(1,)),
                   sums, asked(view), is_open=not view.diagnosis)
