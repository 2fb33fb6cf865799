"""Makes of a folder that measure_unseen.py has left what is kept of it here, for the model to be fitted to.

    kept_unseen.py FOLDER NAME [FIRST LAST]     of these turns, or of the quiet ones, in the folder NAME of this one
It then has true_times.csv, with the runs' times in microseconds, the recordings, in outside.csv what their times tell,
and the model of the machine.
"""
import csv
import pathlib
import shutil
import sys
import tarfile

from judge_unseen import read_measured, read_recording
from measured import HERE


def rows(path):
    with open(path, encoding="utf-8", newline="") as file:
        yield from csv.DictReader(file)


def write(path, heads, several):
    with open(path, "w", encoding="utf-8", newline="") as file:
        out = csv.writer(file, lineterminator="\n")
        out.writerow(heads)
        out.writerows(several)


def times_of(folder, turns):
    """Microseconds of the runs of each program and version, by threads."""
    times = {}
    for row in rows(folder / "turns.csv"):
        if int(row["turn"]) in turns:
            kind = row["program"], row["version"], int(row["threads"])
            times.setdefault(kind, []).append(int(row["nanoseconds"]) / 1000)
    return times


def recordings_of(folder, turns):
    """The paths of texts, by program and threads and turn."""
    found = {}
    for path in sorted(folder.glob("*.tasks")):
        program, threads, turn, _ = path.name.split(".")
        if int(turn) in turns:
            found[program, int(threads), int(turn)] = path
    return dict(sorted(found.items()))


def keep(found, out):
    """The texts, and a row of each."""
    reported = []
    with tarfile.open(out / "recordings.tar.xz", "w:xz", preset=9) as kept:
        for (program, threads, turn), path in found.items():
            kept.add(path, path.name)
            one = read_recording(path)
            reported.append([program, threads, turn, one.outside, one.dispatch, " ".join(map(str, one.arrivals))])
    write(out / "outside.csv", ["program", "threads", "round", "outside", "dispatch", "arrivals"], reported)


def main(words):
    folder, out = pathlib.Path(words[0]), HERE / words[1]
    turns = range(int(words[2]), int(words[3]) + 1) if words[2:] else read_measured(folder).turns
    out.mkdir(exist_ok=True)
    times = times_of(folder, turns)
    most = max(map(len, times.values()))
    write(out / "true_times.csv", ["program", "version", "threads", *("run%d" % (i + 1) for i in range(most))],
          [[*kind, *("%.1f" % one for one in taken)] for kind, taken in sorted(times.items())])
    keep(recordings_of(folder, turns), out)
    shutil.copyfile(folder / "machine.json", out / "machine.json")


if __name__ == "__main__":
    main(sys.argv[1:])
