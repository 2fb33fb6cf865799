"""Predictions as lines and as JSON."""
from math import exp

from spanprof.client import proved
from spanprof.head import lasting
from spanprof.predict.gnu import LOCK
from spanprof.predict.recorded import GNU, LLVM

MODEL = "predicted: by a model of LLVM's scheduling, not proved; its intervals are as wide as nine of ten cases of " \
    "14 programs need that nothing else was fitted to, on 4 threads"
OF_GNU = "predicted: by a model of gcc's scheduling, not proved; its intervals held in 252 of 252 cases of 21 " \
    "programs that nothing was fitted to, on 4 threads as recorded"
UNMATCHED = 0.05    # of the work, from which on it is reported
PREEMPTED = 0.01    # likewise


def at_least():
    return "at least (%s)" % proved("proved, of the burdened text")


def in_us(nanoseconds):
    return "%.3f us" % (nanoseconds / 1000)


def burden_words(dispatch):
    """What was put in the text."""
    return "%s a dispatch" % in_us(dispatch)


def model(found):
    """Of the runtime that was simulated."""
    return OF_GNU if found and found[0][0].runtime == GNU else MODEL


def runtime_words(base, machine, runtime=LLVM):
    """What the runtime takes, and where that was measured."""
    if base.dispatch is not None and runtime == base.runtime:
        return burden_words(base.dispatch) + " (measured in the recording)"
    if runtime == GNU:
        return "%s of the team's lock a task (gcc 12's, measured on another machine)" % in_us(LOCK)
    costs = [machine.cost(name, base.threads) for name in ("dispatch", "steal")]
    return "%s and %s a steal (measured on this machine)" % (burden_words(costs[0]), in_us(costs[1]))


def with_least(one, least):
    return "%s predicted (%s to %s), %s %s" % (*map(lasting, (one.time, one.low, one.high, least)), at_least())


def notes_on(one):
    if one.of > 1:
        yield "the median by %d recordings" % one.of
    if one.base.preempted >= PREEMPTED * one.base.work:
        yield "without %s that other programs took meanwhile" % lasting(one.base.preempted)
    if not one.base.is_timed:
        yield "without what passes outside of the region's code, since the times of the recording are not there"
    if one.by_lock:
        yield "as long as the lock held longest is held"
    if one.unmatched >= UNMATCHED:
        yield "%.0f %% of the work is matched in no other recording" % (100 * one.unmatched)
    if abs(one.grown) >= 0.01:
        yield "with %+.0f %% of work, as it grew on the threads that were recorded" % (100 * exp(one.grown) - 100)


def line(one, least):
    """Of an estimate, and of what no schedule of the burdened text passes."""
    words = "on %d thread%s: %s" % (one.threads, "" if one.threads == 1 else "s", with_least(one, least))
    return "; ".join([words, *notes_on(one)])


def recorded_words(several):
    """Of the recordings on one number of threads."""
    first, took = several[0], sorted(one.elapsed for one in several if one.elapsed)
    of = "recorded on %d threads" % first.threads if len(several) == 1 else \
        "recorded %d times on %d threads" % (len(several), first.threads)
    times = " in " + " to ".join(lasting(time) for time in sorted({took[0], took[-1]})) if took else ""
    return "%s, region at %s, %s%s" % (first.name, first.head.region, of, times)


def lines(several, machine, found):
    """Of the recordings on the most threads; `found` has pairs of an estimate and its least end."""
    base, runtime = (found[0][0].base, found[0][0].runtime) if found else (several[0], LLVM)
    first = "%s: with %s" % (recorded_words(several), runtime_words(base, machine, runtime))
    return [first, *(line(one, least) for one, least in found), model(found)]


def changed_words(threads, before, after):
    """Of the text and the changed one, each with its least end."""
    return "on %d thread%s: %s; of the changed text %s (by a model)" % (
        threads, "" if threads == 1 else "s", with_least(*before), with_least(*after))


def time_json(one, least):
    """In nanoseconds."""
    return {"threads": one.threads, "time": one.time, "from": one.low, "to": one.high, "least": least}


def changed_json(threads, before, after):
    return {"threads": threads, "unit": "ns", "model": model([before]), "text": time_json(*before),
            "changed text": time_json(*after)}


def as_json(several, machine, found):
    return {"text": several[0].name, "region": several[0].head.region, "unit": "ns", "model": model(found),
            "predicted": [
        {**time_json(one, least), "recordings": one.of, "runtime": one.runtime, "dispatch": one.dispatch,
         "steal": one.steal, "notes": list(notes_on(one))} for one, least in found]}
