#!/usr/bin/env python3
"""What recording costs: measure.py FOLDER RECORDER CONVERTER [RUNS [OTHER]], with the programs that recording.sh built
in the folder, the recorder's library and the converter of logs. OTHER is the library of another recorder, such as an
older one.

All of it is processor time, which a machine that does other things tells too. The program of each runtime,
`tasks-NAME`, makes tasks without code, and tasks of 1 and 10 microseconds. It runs without a tool, with a tool that
does nothing where the runtime is LLVM's, and with the recorder. All threads count, with what the runtime does and how
it waits. All take turns, RUNS (40) times. Of the region without a tool it is the median; of each other one the median
of what it takes more in the same turn, with quartiles, and by how much the least of it is longer than the least
without. Then that of the tools alone, which `calls` calls as a runtime does, on one thread, and for a million tasks
the bytes of the log and what the converter takes: the least of a few runs.
"""
import glob
import os
import statistics
import subprocess
import sys
import tempfile
from dataclasses import dataclass

SIZES = ((0, 200_000), (1, 200_000), (10, 40_000))  # microseconds of a task, and how many tasks
MILLION = 1_000_000
CALLED = 200_000
FEW = 5
WAYS = ("without", "a tool that does nothing", "the recorder", "the recorder, cpu")
OTHER = "the other recorder"


@dataclass
class Built:
    folder: str
    recorder: str
    converter: str
    other: str = ""

    def ways(self):
        return WAYS + ((OTHER,) if self.other else ())

    def tool(self, way):
        """The library of one of the ways; none without a tool."""
        if way == WAYS[0]:
            return ""
        if way == OTHER:
            return self.other
        return self.recorder if way.startswith("the recorder") else os.path.join(self.folder, "nothing.so")

    def program(self, name):
        return os.path.join(self.folder, name)

    def runtimes(self):
        """The names behind `tasks-` of the programs."""
        return sorted(os.path.basename(path)[len("tasks-"):] for path in glob.glob(self.program("tasks-*")))

    def ways_of(self, runtime):
        """Those in which the program of a runtime is run."""
        return [way for way in self.ways() if not way.endswith("cpu") and (way != WAYS[1] or not is_of_gcc(runtime))]


def is_of_gcc(runtime):
    return runtime.startswith("gcc")


def environment(tool, way, out, variable="OMP_TOOL_LIBRARIES"):
    new = dict(os.environ, OMP_WAIT_POLICY="passive", SPANPROF_OUT=out, SPANPROF_QUIET="1")
    for name in ("OMP_TOOL_LIBRARIES", "SPANPROF_CLOCK"):
        new.pop(name, None)
    if way.endswith("cpu"):
        new["SPANPROF_CLOCK"] = "cpu"
    if tool:
        new[variable] = tool
    return new


def numbers(words, variables):
    done = subprocess.run(words, env=variables, check=True, capture_output=True, text=True)
    return [float(word) for word in done.stdout.split()]


def region_of(built, runtime, way, count, loops):
    """Processor time of the region, in microseconds a task, and the bytes of its log."""
    variable = "LD_PRELOAD" if is_of_gcc(runtime) else "OMP_TOOL_LIBRARIES"
    with tempfile.TemporaryDirectory() as folder:
        out = os.path.join(folder, "out")
        words = [built.program("tasks-" + runtime), str(count), str(loops)]
        reported = numbers(words, environment(built.tool(way), way, out, variable))
        log = os.path.join(out + ".spanprof", "log")
        return reported[1] / count / 1000, size_of(log) / count if os.path.exists(log) else 0


def calls_of(built, way):
    """Processor time of the tool alone, in microseconds a task."""
    with tempfile.TemporaryDirectory() as folder:
        words = [built.program("calls"), built.tool(way), str(CALLED)]
        return numbers(words, environment("", way, os.path.join(folder, "out")))[0] / 1000


def size_of(folder):
    return sum(os.path.getsize(os.path.join(folder, name)) for name in os.listdir(folder))


def converted(built, log):
    """Processor time in seconds, and the most memory in bytes."""
    done = subprocess.run([sys.executable, "-c", MEASURED, built.converter, log, log + ".out"], check=True,
                          capture_output=True, text=True, env=dict(os.environ, SPANPROF_LINES="0"))
    spent, memory = done.stdout.split("\n")[-2].split()
    return float(spent), int(memory)


MEASURED = """
import resource, subprocess, sys
subprocess.run(sys.argv[1:], check=True, stdout=subprocess.DEVNULL)
use = resource.getrusage(resource.RUSAGE_CHILDREN)
print(use.ru_utime + use.ru_stime, use.ru_maxrss * 1024)
"""


def million_of(built):
    """Bytes of the log a task, and seconds and bytes of its conversion."""
    with tempfile.TemporaryDirectory() as folder:
        out = os.path.join(folder, "out")
        numbers([built.program("calls"), built.recorder, str(MILLION)], environment("", "the recorder", out))
        log = os.path.join(out + ".spanprof", "log")
        return (size_of(log) / MILLION, *converted(built, log))


def in_turns(ways, measure, runs):
    """What was measured of each way; the ways take turns, so that each meets the machine in the same state."""
    taken = {way: [] for way in ways}
    for _ in range(runs):
        for way in ways:
            taken[way].append(measure(way))
    return taken


def least(ways, measure, runs):
    return {way: min(some) for way, some in in_turns(ways, measure, runs).items()}


def row(cells):
    return "| " + " | ".join(cells) + " |"


def table(*heads):
    return row(heads) + "\n" + row(["---"] * len(heads))


def more(first, other):
    """Of what was measured in turns: the median of the differences, their quartiles, and the ratio of the least."""
    apart = [mine - base for mine, base in zip(other, first)]
    low, middle, high = statistics.quantiles(apart, n=4) if len(apart) > 1 else apart * 3
    return "%.2f (%.2f to %.2f), %.2f times" % (middle, low, high, min(other) / min(first))


def more_row(name, ways, measured):
    """What the first way takes, how much more each other one does, and the bytes of the recorder's log a task."""
    first = [time for time, _ in measured[WAYS[0]]]
    others = [more(first, [time for time, _ in measured[way]]) if way in measured else "" for way in ways[1:]]
    log = min(size for _, size in measured[WAYS[2]])
    return row([name, "%.2f" % statistics.median(first)] + others + ["%.0f" % log])


def tell_regions(built, runs):
    """The table of all runtimes, for each size of tasks."""
    runtimes, ways = built.runtimes(), [way for way in built.ways() if not way.endswith("cpu")]
    turns = int(numbers([built.program("tasks-" + runtimes[0]), "0"], dict(os.environ))[0])
    print(table("Processor time, us a task", "Without", *("More with " + way for way in ways[1:]), "Bytes"))
    for runtime in runtimes:
        for size, count in SIZES:
            measured = in_turns(built.ways_of(runtime), lambda way, r=runtime, c=count, s=size: region_of(
                built, r, way, c, s * turns), runs)
            print(more_row("%s, %d us of code" % (runtime, size), ways, measured), flush=True)
    print()


def main():
    runs = int(sys.argv[4]) if len(sys.argv) > 4 else 40
    built = Built(*map(os.path.abspath, sys.argv[1:4]), *map(os.path.abspath, sys.argv[5:6]))
    tell_regions(built, runs)
    alone = least(built.ways()[1:], lambda way: calls_of(built, way), FEW)
    print(table("The tool alone", "Processor time, us a task"))
    for way, taken in alone.items():
        print(row([way, "%.3f" % taken]))
    print()
    log, spent, memory = map(min, zip(*(million_of(built) for _ in range(FEW))))
    print(table("A million tasks", ""))
    print(row(["bytes of the log a task", "%.0f" % log]))
    print(row(["conversion, s of processor time", "%.2f" % spent]))
    print(row(["conversion, MB", "%.0f" % (memory / 1e6)]))


if __name__ == "__main__":
    main()
