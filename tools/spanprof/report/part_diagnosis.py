"""The first screen: a sentence, three times, where the threads' time went, the change as a diff, the plan, how sure;
and what each change that was tried would bring, with the line of spanprof-whatif that asks for it.
"""
import shlex

from spanprof.diagnosis.causes import AT_BEST
from spanprof.diagnosis.names import diff
from spanprof.diagnosis.sentences import (after_words, change_sentence, loss_name, lost_sentence, several, speed_words,
                                          sure_words, unsure, word_of_best, words_of_threads)
from spanprof.head import lasting
from spanprof.report.figures import PROVED, badge
from spanprof.report.markup import join, note, section, table, tag

LEAST = 0.02        # of the threads' time, from which on a loss is a part of the bar
LEAST_SEEN = 0.04   # from which on there is room for its share
MOST_PARTS = 4
LETTERS = 110       # that fit into a line of the bar
MOST = 20
HEADS = ("change", "the run takes", "less", "90 % interval")


def headline(found):
    facts = found.facts
    return tag("h1", "%s takes %s on %s%s." % (facts.program or "The program", lasting(found.now),
                                               several(facts.threads, "thread"), speed_words(facts)))


def one_time(time, words):
    return tag("div", tag("b", time), tag("span", words), class_="time")


def times(found):
    now = "now, on " + words_of_threads(found.facts)
    first = [one_time(lasting(step.after), "after the first change, %s" % (
        "predicted" if step.change else "at best" if step.at_best else "estimated")) for step in found.plan[:1]]
    how = "" if word_of_best(found) == AT_BEST else ", estimated"
    return tag("div", one_time(lasting(found.now), now), *first,
               one_time(lasting(found.best), "at best%s: all threads busy all the time" % how), class_="times")


def parts(reported):
    """Of the bar: words, a share and a class. Losses in one function are one part."""
    found, lost = reported.found, {}
    for loss in found.losses:
        words = loss_name(reported.names, loss).partition(" (")[0]
        lost[words] = lost.get(words, 0) + found.facts.share(loss.time)
    large = [pair for pair in sorted(lost.items(), key=lambda pair: -pair[1]) if pair[1] >= LEAST][:MOST_PARTS]
    out = [("in code", found.facts.share(found.code_on_one), "of-code")] + \
        [(words, share, "of-loss%d" % i) for i, (words, share) in enumerate(large)]
    rest = 1 - sum(share for _, share, _ in out)
    return out + [("the rest", rest, "of-rest")] * (rest >= 0.005)


def has_room(words, share):
    """For its words, in two lines at most."""
    return len(words) <= 2 * LETTERS * share and max(map(len, words.split())) + 2 <= LETTERS * share


def part_bar(reported):
    """What has no room for its words in the bar has them below it; on a phone the bar stands upright, and has all."""
    pieces, below = [], []
    for words, share, class_ in parts(reported):
        inside, seen = has_room(words + " 99 %", share), "%.0f %%" % (100 * share)
        pieces.append(tag("i", tag("span", words, " "), tag("b", seen), style="flex:%d" % max(1, 1000 * share),
                          title="%s: %.1f %%" % (words, 100 * share),
                          class_=class_ + " thin" * (not inside) + " thinnest" * (share < LEAST_SEEN)))
        below += [] if inside else [tag("span", tag("i", class_="key " + class_), "%s %s" % (words, seen))]
    spoken = ", ".join("%s %.0f %%" % (words, 100 * share) for words, share, _ in parts(reported))
    return [tag("div", *pieces, class_="went", role="img", aria_label=spoken),
            tag("p", *below, class_="legend of-went") if below else ""]


def source_diff(reported, step):
    out, put = diff(reported.names, step)
    lines = [tag("span", "- " + line, class_="out") for line in out] + \
        [tag("span", "+ " + line, class_="in") for line in put]
    return tag("pre", join(lines), class_="diff") if lines else ""


def gain(step):
    less = " (−%.0f %%)" % (100 * (step.before - step.after) / step.before) if step.before else ""
    return tag("b", lasting(step.before), " → ", after_words(step), less,
               class_="gain")


def then(reported):
    rows = [tag("li", tag("span", "or in its place: " * step.is_instead,
                          change_sentence(reported.found.facts, reported.names, step)), " ", gain(step))
            for step in reported.found.plan[1:]]
    return [tag("h3", "Then, on top of it"), tag("ol", *rows)] if rows else []


def sure(reported, warnings=0):
    rest = unsure(reported.found, reported.names)
    words = ", ".join(sure_words(reported.found)) + (". Not known: %s." % rest if rest else ".")
    link = [" ", tag("a", several(warnings, "warning"), href="#numbers"), "."] if warnings else []
    return tag("p", words, *link, class_="sure")


def first_screen(reported, warnings=0):
    """Numbers are in words of the diagnosis: tables below have those that are worked out again."""
    found = reported.found
    title = tag("h3", "Where the time of the %s went" % several(found.facts.threads, "thread"))
    lost = [tag("p", tag("b", "%.0f %%" % (100 * found.facts.lost_share(loss))), " lost: ",
                lost_sentence(found.facts, reported.names, loss), ".", class_="lost") for loss in found.causes]
    first = [tag("div", tag("h3", "First"),
                 tag("p", change_sentence(found.facts, reported.names, step), " ", gain(step)),
                 source_diff(reported, step), class_="first") for step in found.plan[:1]]
    return tag("div", headline(found), *lost, times(found), title, *part_bar(reported), *first, *then(reported),
               sure(reported, warnings), class_="diagnosis given")


def without_run(view):
    """Of a text without a recorded run on several threads, of which no cause is known."""
    answers, show = view.answers, view.figures
    why = "It was recorded on one thread: record it on more. " if answers.head.threads == 1 else ""
    return tag("div", tag("h1", view.name), tag(
        "p", why, "Work ", show.time(answers.work, "span work", PROVED), ", span ",
        show.time(answers.span, "span span", PROVED), ": on any number of threads at most ",
        show.times_at_most(answers.work, answers.span, "span work / span span", PROVED), " times as fast ",
        badge(PROVED), ". What changes bring: ", tag("code", "spanprof-whatif %s --places" % view.name), "."),
        class_="diagnosis")


def first_part(view):
    reported, head = view.diagnosis, view.answers.head
    screen = first_screen(reported, len(head.remarks) + len(head.locks)) if reported else without_run(view)
    return tag("section", screen, id="summary")


def command(name, threads, requests):
    words = [word for request in requests for word in ("--" + request.option, request.word)]
    return " ".join(map(shlex.quote, ["spanprof-whatif", name, *words, "--threads", str(threads)]))


def change_cell(view, number, step):
    """In words, and the command; a bound has none."""
    reported, name = view.diagnosis, "change-%d" % number
    words = tag("span", change_sentence(reported.found.facts, reported.names, step), class_="place")
    if not step.change:
        return tag("span", words, class_="where change")
    line = command(view.name, reported.found.facts.threads, step.change.requests)
    return tag("span", words, tag("code", line, id=name, title=line),
               tag("button", "copy", type="button", data_copy=name), class_="where change")


def row(view, number, step):
    between = "%s and %s" % (lasting(step.low), lasting(step.high)) if step.change else ""
    return [change_cell(view, number, step), after_words(step),
            "%.0f %%" % (100 * step.gain / max(step.before, 1)), between]


def changes_part(view):
    """Nothing where no change was tried that brings something."""
    steps = view.diagnosis.found.steps[:MOST] if view.diagnosis else []
    return section("changes", "What-if changes", note(
        "Each change alone, the most certain and valuable ones first. Whether the program stays correct is for you to "
        "judge. The command below a change tries it again; several options make several changes at once."),
        tag("div", table(HEADS, [row(view, number, step) for number, step in enumerate(steps)], numeric=(1, 2, 3)),
            class_="given")) if steps else ""
