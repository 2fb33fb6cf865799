"""Predictions of recordings, each with what no schedule of the burdened text passes."""
import os
import statistics
from dataclasses import replace

from spanprof import client
from spanprof.command import Fault
from spanprof.converting import region_text
from spanprof.predict.burden import burdened_text
from spanprof.predict.estimate import estimate
from spanprof.predict.machine import machine_file, read_machine
from spanprof.predict.recorded import LLVM, RUNTIMES, recorded, with_text
from spanprof.predict.words import changed_json, changed_words
from spanprof.recording import folder_of, open_recording, text_of as plain_text

SLOW = 1.15     # times as long as what undisturbed recordings on as many threads took
NEAR = 1.03     # on a quiet machine the second quickest of five runs is within that of the quickest in nine of ten


def text_of(path, tell=lambda words: None):
    """A text, or of a recording that of its region with the most code, or the only one where it has no log; the name;
    the runtime, which no text tells."""
    if not folder_of(path):
        return plain_text(path), path, LLVM
    one = open_recording(path)
    runtime = (one.meta.get("runtime") or {}).get("name")
    text = region_text(one, tell=tell) if one.log else one.text
    return text, one.name, runtime if runtime in RUNTIMES else LLVM


def undisturbed(several):
    """Of the recordings on one number of threads those that were made in no slow moment. The quickest that another one
    is near to shows it: where none is, the machine's own speed changes, or schedules differ, and the middle counts."""
    times = sorted(one.elapsed for one in several)
    pairs = (one for one, next_one in zip(times, times[1:]) if next_one <= NEAR * one)
    undisturbed_time = next(pairs, statistics.median_low(times))
    return [one for one in several if one.elapsed <= SLOW * undisturbed_time or not undisturbed_time]


def by_threads(several):
    """The recordings of one region, by what `text_of` tells, by their numbers of threads, but for slow ones."""
    found = {}
    for one in (recorded(*each) for each in several):
        found.setdefault(one.threads, []).append(one)
    places = {one.head.region for several in found.values() for one in several}
    if len(places) > 1:
        raise Fault("the texts are not of one region, but of those at %s" % " and ".join(sorted(places)))
    return {threads: undisturbed(several) for threads, several in found.items()}


def least_end(text, costs, threads):
    """What no schedule on so many threads passes, by what spanprof tells of the burdened text."""
    numbers = client.numbers(burdened_text(text, costs))
    return max(numbers["span"], -(-numbers["work"] // threads))


def with_least(one):
    """The estimate, no less than that, and that."""
    least = least_end(one.base.text, one.costs, one.threads)
    return replace(one, time=max(one.time, least), high=max(one.high, least)), least


def predictions(recordings, machine, numbers=None, runtime=None):
    """Pairs of an estimate and its least end; without numbers, on as many threads as recorded and on twice as many."""
    most = max(recordings)
    return [with_least(estimate(recordings, machine, threads, runtime)) for threads in numbers or [most, 2 * most]]


def of_both(path, change, threads):
    """Pairs as above of a recording's text, and of what `change` makes of it; None without a model."""
    if not os.path.exists(machine_file()):
        return None
    machine, base = read_machine(machine_file()), recorded(*text_of(path))
    found = (base, with_text(base, change(base.text)))
    return [with_least(estimate({base.threads: [one]}, machine, threads)) for one in found]


def changed_reported(path, change, threads):
    """The same in a line and as JSON, or why no time is reported; none as above."""
    try:
        both = of_both(path, change, threads)
    except Fault as why:
        return ["no time is predicted: %s" % why], {"none": str(why)}
    return ([changed_words(threads, *both)], changed_json(threads, *both)) if both else ([], None)
