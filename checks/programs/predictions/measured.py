"""The programs' true times and recordings, as they lie in this folder, or in another one in it.

True times are those of runs without the recorder, in microseconds. Each program was recorded several times on 1, 2 and
4 threads, by the wall clock; outside.csv has what the times of a recording tell, in nanoseconds.
"""
import csv
import pathlib
import statistics
import sys
import tarfile

HERE = pathlib.Path(__file__).resolve().parent
LATER = HERE / "later"      # measured later, of other programs
sys.path.insert(0, str(HERE.parents[2] / "tools"))

from spanprof.predict.recorded import recorded_as


def rows(path):
    with open(path, encoding="utf-8", newline="") as file:
        yield from csv.DictReader(file)


def true_times(folder=HERE, version="before"):
    """By program and threads, the median in nanoseconds."""
    return {(row["program"], int(row["threads"])): 1000 * statistics.median(
        float(time) for name, time in row.items() if name.startswith("run") and time)
        for row in rows(folder / "true_times.csv") if row.get("version", "before") == version}


def read(text, row):
    """The recording of a row, with what its times tell."""
    one = recorded_as(text, "%s.%s.%s.tasks" % (row["program"], row["threads"], row["round"]), int(row["outside"]))
    one.arrivals = tuple(map(int, row.get("arrivals", "").split()))
    one.dispatch = int(row["dispatch"]) if row.get("dispatch") else None
    return one


def texts(folder=HERE):
    """By program, pairs of the text and the row of each recording."""
    found = {}
    with tarfile.open(folder / "recordings.tar.xz") as kept:
        for row in rows(folder / "outside.csv"):
            name = "%s.%s.%s.tasks" % (row["program"], row["threads"], row["round"])
            found.setdefault(row["program"], []).append((kept.extractfile(name).read().decode("utf-8"), row))
    return found


def recordings(several):
    """Of pairs as above, by round and then by threads."""
    found = {}
    for text, row in several:
        found.setdefault(int(row["round"]), {})[int(row["threads"])] = read(text, row)
    return found
