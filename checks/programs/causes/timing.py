"""Times of programs without the recorder, and whether the machine had time for them."""
import os
import resource
import statistics
import subprocess
import time
from contextlib import contextmanager
from typing import List, NamedTuple

RUNS = 7
QUIET = 0.1     # of the processors' time, which others may take
TICKS = os.sysconf("SC_CLK_TCK")
# It ends with the process that began it, however that ends.
BUSY = ["sh", "-c", "while kill -0 $PPID; do i=0; while [ $i -lt 10000 ]; do i=$((i + 1)); done; done"]


class Times(NamedTuple):
    """Seconds, in the order of the runs."""
    was: List[float]
    fixed: List[float]
    is_same: bool   # that they write the same
    others: float   # what other programs took, as a part of the processors' time

    @property
    def gain(self):
        """Percent."""
        return 100 * (1 - statistics.median(self.fixed) / statistics.median(self.was))

    @property
    def is_quiet(self):
        return self.others <= QUIET


def busy_seconds(text):
    """All processors together, by /proc/stat."""
    user, nice, system, _, _, irq, softirq, steal = map(int, text.split("\n")[0].split()[1:9])
    return (user + nice + system + irq + softirq + steal) / TICKS


def busy_now():
    with open("/proc/stat", encoding="ascii") as file:
        return busy_seconds(file.read())


def own_now():
    own = [resource.getrusage(who) for who in (resource.RUSAGE_SELF, resource.RUSAGE_CHILDREN)]
    return sum(one.ru_utime + one.ru_stime for one in own)


def part_of_others(busy, own, elapsed, processors):
    return max(0.0, (busy - own) / max(elapsed * processors, 1e-9))


@contextmanager
def busy_processes(number):
    begun = [subprocess.Popen(BUSY, stdout=subprocess.DEVNULL, stderr=subprocess.DEVNULL) for _ in range(number)]
    try:
        yield begun
    finally:
        for one in begun:
            one.kill()
            one.wait()


def timed(command, variables):
    """The seconds of a run, and what it wrote."""
    begun = time.perf_counter()
    done = subprocess.run(command, env=variables, stdout=subprocess.PIPE, check=True)
    return time.perf_counter() - begun, done.stdout


def interleaved(was, fixed, threads, busy=0, runs=RUNS):
    """The program and the repaired one in turns, so that a machine that becomes slower does so for both. Beside the
    first one as many others run as `busy` says."""
    variables = dict(os.environ, OMP_NUM_THREADS=str(threads), OMP_TOOL="disabled")
    before, after, outputs = [], [], set()
    others = 0.0
    for _ in range(runs):
        with busy_processes(busy):
            seconds, output = timed(was, variables)
        before.append(seconds)
        outputs.add(output)
        busy_before, own_before, begun = busy_now(), own_now(), time.perf_counter()
        seconds, output = timed(fixed, variables)
        after.append(seconds)
        outputs.add(output)
        others += part_of_others(busy_now() - busy_before, own_now() - own_before, time.perf_counter() - begun,
                                 os.cpu_count())
    return Times(before, after, len(outputs) == 1, others / runs)
