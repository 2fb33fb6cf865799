"""What one run cannot tell, by more runs of the program: true times on several numbers of threads, and what each place
costs on one thread."""
import json
import os
import statistics
import tempfile

from spanprof.command import writing
from spanprof.diagnosis.places import read_places
from spanprof.head import counted, head_of, lasting
from spanprof.record.folder import old_meta
from spanprof.record.run import ON_ONE, Failed, rewind, say, tell, unrecorded
from spanprof.record.summary import named
from spanprof.recording import SCALE
from spanprof.segment_table import code_in

HEADS = ("threads", "median", "least", "greatest", "speedup")
SAID = "speedup: the median time on one thread over that on so many, the true one (measured)"


def scale_json(times, library=""):
    """Elapsed times of the whole program in nanoseconds by number of threads, in the order of the runs; `library` is
    the runtime that they were given, where it is not what the program is linked with."""
    rows, one = [], statistics.median(times[1])
    for threads, taken in sorted(times.items()):
        low, middle, high = (one / max(time, 1) for time in (max(taken), statistics.median(taken), min(taken)))
        rows.append({"threads": threads, "times": taken, "median": int(statistics.median(taken)), "least": min(taken),
                     "greatest": max(taken), "speedup": middle, "speedup from": low, "speedup to": high})
    return {"unit": "ns", "runs": len(times[1]), "runtime": library or None,
            "processors": len(os.sched_getaffinity(0)), "measured": "whole program, unrecorded runs", "threads": rows}


def table_lines(scale):
    """Of what `scale_json` makes."""
    rows = [HEADS] + [[str(row["threads"]), *(lasting(row[name]) for name in HEADS[1:4]), "%.2f" % row["speedup"]]
                      for row in scale["threads"]]
    widths = [max(map(len, column)) for column in zip(*rows)]
    turns = "%d unrecorded runs on each number, in turns" % scale["runs"] if scale["runs"] > 1 else \
        "one unrecorded run on each number"
    on, most = ", on " + scale["runtime"] if scale["runtime"] else "", scale["threads"][-1]["threads"]
    shared = ["on %s they share %d processors" % (counted(most, "thread"), scale["processors"])]
    return [*("  ".join(word.rjust(width) for word, width in zip(words, widths)) for words in rows),
            turns + ": elapsed time of the whole program" + on + " (measured)", SAID,
            *shared * (scale["processors"] < most)]


def named_table(scale):
    """As the summary has it."""
    return named("true times", table_lines(scale))


def costs_by_place(path):
    """In nanoseconds, of a text of any size, with the places of a diagnosis."""
    code = code_in(path)
    return {name: place.cost for name, place in read_places(code, head_of(path).nanoseconds or 1).places.items()}


def cost_on_one(session):
    """By place, of a recording on one thread, which is not kept."""
    tell("recorded run on one thread")
    rewind()
    with tempfile.TemporaryDirectory() as folder:
        status, text = session.record_aside(os.path.join(folder, "one"), ON_ONE)
        if status:
            raise Failed("the recorded run on one thread", status)
        return costs_by_place(text) if text else None


def more_runs(session, folder):
    """Runs the program on the numbers of threads asked for, or on that of the recording in a folder and on one,
    and writes the scale there; answers more facts for its recording.json, as far as no run fails."""
    old, chosen, facts = old_meta(folder), session.options, {}
    threads = old.get("threads") or {}
    most = threads.get("most") or threads.get("asked") or old.get("processors") or 1
    try:
        times = unrecorded(session, chosen.scale or [most, 1], chosen.runs)
        session.scale = scale_json(times, os.path.basename(session.preload))
        with writing(os.path.join(folder, SCALE)) as file:
            json.dump(session.scale, file, indent=2)
        facts = {"true_one": times[1], "true_many": times[max(times)]}
        facts["cost_on_one"] = cost_on_one(session)
    except Failed as failed:
        say("%s: %s" % (failed, "its costs are not known" if facts else "no speedup"))
    return facts
