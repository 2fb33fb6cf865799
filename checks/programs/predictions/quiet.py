"""Whether a machine did nothing else meanwhile: by /proc/stat, what its host took away and what other programs used."""
import contextlib
import os
import resource
import sys
from typing import NamedTuple

MOST = 0.03     # of all processors' time, in a turn that counts as quiet
NAMES = ("user", "nice", "system", "idle", "iowait", "irq", "softirq", "steal")
IDLE = ("idle", "iowait")


class Used(NamedTuple):
    """Shares of all processors' time; the load is of the last minute."""
    stolen: float
    others: float
    load: float

    @property
    def is_quiet(self):
        return self.stolen + self.others <= MOST


def read_stat(path="/proc/stat"):
    """Seconds by name, of all processors together."""
    with open(path, encoding="ascii") as file:
        words = file.readline().split()
    return {name: int(word) / os.sysconf("SC_CLK_TCK") for name, word in zip(NAMES, words[1:])}


def own_seconds():
    """Of this process and of those that it has waited for."""
    return sum(getattr(resource.getrusage(who), name) for who in (resource.RUSAGE_SELF, resource.RUSAGE_CHILDREN)
               for name in ("ru_utime", "ru_stime"))


def used(before, after, own, load):
    """Between two readings, of which programs of one's own took so many seconds."""
    spent = {name: after[name] - before[name] for name in NAMES}
    whole = max(sum(spent.values()), 1e-9)
    busy = sum(taken for name, taken in spent.items() if name not in (*IDLE, "steal"))
    return Used(spent["steal"] / whole, max(busy - own, 0) / whole, load)


def write_niceness(path, niceness):
    """Of a session's processes together, where the kernel shares processors by sessions first (sched_autogroup); the
    one before."""
    with open(path, "r+", encoding="ascii") as file:
        before = file.read().split()[-1]
        file.seek(0)
        file.write(niceness)
    return before


@contextlib.contextmanager
def going_first(path="/proc/self/autogroup"):
    """Where it is allowed, runs go before other programs on the processors: else one that only waits for a tick to end
    can hold a thread up for four milliseconds. The niceness of the session is put back, that of the process is not."""
    try:
        os.setpriority(os.PRIO_PROCESS, 0, -20)
        before = write_niceness(path, "-20")
    except OSError as wrong:
        print("runs do not go before other programs: %s" % wrong, file=sys.stderr)
        yield
        return
    try:
        yield
    finally:
        write_niceness(path, before)


class Watch:
    """Reads both when it is made, and tells what passed since."""

    def __init__(self):
        self.stat, self.own = read_stat(), own_seconds()

    def used(self):
        return used(self.stat, read_stat(), own_seconds() - self.own, os.getloadavg()[0])


def verdict(turns):
    """A line on several turns."""
    if not turns:
        return "the machine: no turn was watched"
    quiet = sum(one.is_quiet for one in turns)
    worst = max(turns, key=lambda one: one.stolen + one.others)
    return "the machine was %s: %d of %d turns without more than %.0f %% of its time for others; at worst %.1f %% " \
        "stolen and %.1f %% of other programs, load up to %.1f" % (
            "quiet" if quiet == len(turns) else "NOT QUIET", quiet, len(turns), 100 * MOST, 100 * worst.stolen,
            100 * worst.others, max(one.load for one in turns))
