"""Holds what a summary claims against what is true of the program, and against a run that would refute it."""

ENOUGH = 0.95   # of a program, from which on its text may stand for it
TOLERANCE = 0.05
SLACK = 0.5     # milliseconds: the loops' own ends, the runtime's part


def is_above(claimed, true):
    """More than what the making of the program and the clock's grain leave open."""
    return claimed > true * (1 + TOLERANCE) + SLACK


def gains_above(true, claimed):
    return true > claimed * (1 + TOLERANCE)


def of_the_work(summary, shape):
    if summary.is_work_doubted or summary.work is None:
        return
    whole = summary.work / (summary.share / shape.share) if summary.share and summary.share < ENOUGH else summary.work
    if is_above(summary.work, shape.work):
        yield "work %.1f, and the region has %.1f" % (summary.work, shape.work)
    if is_above(shape.work * ENOUGH, whole):
        yield "work %.1f of a text that is said to have %s of the program, and the region has %.1f" % (
            summary.work, "all" if summary.share is None else "%.3f" % summary.share, shape.work)


def of_the_share(summary, shape):
    if summary.is_work_doubted:
        return
    if summary.share is None:
        yield "no word of how much of the program is in the text"
    elif summary.share < ENOUGH and not summary.is_called_a_part:
        yield "the first line does not say that the text has %.3f of the program" % summary.share
    elif summary.share > shape.share + TOLERANCE:
        yield "the text is said to have %.3f of the program, and the region has %.3f" % (summary.share, shape.share)


def of_what_is_left_unsaid(summary, shape, threads):
    """A summary that claims nothing would be right each time."""
    is_doubted = summary.is_work_doubted or summary.is_span_doubted
    if shape.is_plain and threads > 1 and not is_doubted and None in (summary.end_on_any, summary.gain_on_any):
        yield "nothing is claimed of any number of threads"


def of_all_threads(summary, shape):
    if summary.end_on_any is not None and is_above(summary.end_on_any, shape.least(1024)):
        yield "no number of threads ends before %.1f, and %.1f is true" % (summary.end_on_any, shape.least(1024))
    for name, claimed in (("no number of threads", summary.gain_on_any), ("no run", summary.lock_gain)):
        if claimed is not None and gains_above(shape.most(), claimed):
            yield "%s gains more than %.2f, and %.2f is true" % (name, claimed, shape.most())


def of_each_number(summary, shape):
    for threads, claimed in summary.at_most.items():
        if gains_above(shape.most(threads), claimed):
            yield "%d threads gain %.2f at most, and %.2f is true" % (threads, claimed, shape.most(threads))
    for threads, claimed in summary.at_least.items():
        if claimed > shape.most(threads) * (1 + TOLERANCE):
            yield "%d threads gain %.2f at least, and %.2f is the most" % (threads, claimed, shape.most(threads))


def of_the_words(summary, threads):
    for line in summary.lines:
        if "proved" in line and "of the recorded text" not in line:
            yield "what is proved is not said: " + line
        if "as fast as one" in line:
            yield "a comparison with a run that was not made: " + line
    if summary.busy is not None and summary.busy > threads * (1 + TOLERANCE):
        yield "%.2f threads were busy, of %d" % (summary.busy, threads)


def doubts_of(summary):
    """Which numbers a remark moves: on a busy machine the wall clock goes on while code has no processor."""
    moved = (("work", summary.is_work_doubted), ("span", summary.is_span_doubted))
    return " and ".join(name for name, is_doubted in moved if is_doubted)


def faults(summary, shape, threads):
    """Of the summary of a run on so many threads."""
    kinds = (of_the_work(summary, shape), of_the_share(summary, shape), of_all_threads(summary, shape),
             of_each_number(summary, shape), of_the_words(summary, threads),
             of_what_is_left_unsaid(summary, shape, threads))
    return [fault for found in kinds for fault in found]


def refuted(summary, shape, threads, elapsed):
    """By a run of the program on so many threads that took so many milliseconds."""
    gained, out = shape.work / elapsed, []
    if summary.end_on_any is not None and is_above(summary.end_on_any, elapsed):
        out.append("a run on %d threads took %.1f, and %.1f is the end that none is before" % (
            threads, elapsed, summary.end_on_any))
    claims = (summary.gain_on_any, summary.lock_gain, summary.at_most.get(threads))
    out += ["a run on %d threads gained %.2f, and %.2f is the most" % (threads, gained, claimed)
            for claimed in claims if claimed is not None and gains_above(gained, claimed)]
    return out
