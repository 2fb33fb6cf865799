"""The causes for which a run is no faster: one table of them.

A cause is named where its losses are at least `least` of the threads' time. Where a cause is of the shape, changes of
the text are tried for it; of another the gain is a bound, as if its losses were gone. Each has a row in the
manual, and programs of its name in checks/programs/causes.
"""
from typing import NamedTuple

AT_BEST = "at best"
# No bound on either side. Some locks, calls, tasks or barriers may stay, and without contention the same lines still
# take some time. Other code may be cheaper too, and on one thread much cheaper.
ABOUT = "about"


class Cause(NamedTuple):
    kind: str
    name: str           # a short one
    least: float        # of the threads' time
    lost: str           # the sentence
    change: str = ""    # what to do, where the gain is a bound: that of losing nothing so
    without: str = AT_BEST      # how the run's time without these losses is to be read

    @property
    def is_bound(self):
        return bool(self.change)

    @property
    def is_of_program(self):
        return self.kind not in ("machine", "efficient")


TABLE = (
    Cause("serial", "serial", 0.05, "{where} runs on one thread: {alone}"),
    Cause("too_few_tasks", "too few tasks", 0.05, "too few tasks: threads wait while {where} runs"),
    Cause("imbalance", "uneven tasks", 0.05, "uneven tasks at {where}: longest {largest}, average {average}"),
    Cause("dependence", "dependences", 0.05, "{tasks} of {where} are serialised: {many} have depend({item})"),
    Cause("wait", "waits", 0.05, "threads wait at {where}, where other tasks could run"),
    Cause("small_tasks", "small tasks", 0.1,
          "{all_tasks} tasks of {average_task} each: creating and starting them costs too much",
          "larger tasks at {at}: a cutoff or grainsize", ABOUT),
    Cause("creation", "creating tasks", 0.1,
          "one thread creates all {all_tasks} tasks, {average_task} each: the others wait for it",
          "{less_creating}", ABOUT),
    Cause("small_regions", "small regions", 0.1, "{short_regions} costs too much", "{longer_regions}", ABOUT),
    Cause("small_chunks", "small chunks", 0.1,
          "over {chunks} chunks of {at}, one per {a_chunk}: scheduling them costs too much",
          "schedule(static) at {at}, or schedule(dynamic, {of_turns})", ABOUT),
    Cause("undeferred", "undeferred tasks", 0.05,
          "{tasks} of {where} are undeferred: their creator runs them"),
    Cause("loop_schedule", "loop schedule", 0.05, "threads wait at the end of {at}: {uneven}", "{shared}"),
    Cause("barrier", "barriers", 0.05, "threads wait for each other at {at}, though each has as much to do in all",
          "{nowait}, if each thread uses its own results"),
    Cause("lock", "lock", 0.1, "threads wait for {lock}, {times}", "{less_locking}", ABOUT),
    Cause("exclusion", "exclusion", 0.1, "tasks of {where} exclude each other: mutexinoutset",
          "exclude only the update at {at}, or use smaller items"),
    Cause("spin", "spinning", 0.1, "threads spin at {spins} until another thread writes there",
          "shorten what they wait for: divide it evenly, or hold it for less"),
    Cause("memory", "memory", 0.1, "{contended}", "{instead}", ABOUT),
    Cause("strides", "strides", 0.1, "the inner loop at {strides_at} uses a new cache line for each element",
          "adjacent elements at {strides_at}: swap or block loops", ABOUT),
    Cause("allocation", "memory allocation", 0.08,
          "allocating memory takes {allocating} % of parallel code, mostly in {where}",
          "allocate once, outside the loop, or per thread", ABOUT),
    Cause("system", "operating system", 0.1,
          "{system} % of processor time is in the kernel: {kernel} in {where}", "{less_kernel}", ABOUT),
    Cause("sleep", "asleep", 0.1, "{sleeper} waits {in_what}",
          "wait less at {sleeps_at}: start it earlier{sooner}"),
    Cause("too_few_threads", "too few threads", 0.1, "{got} in the region at {where}{others}",
          "{more_threads}"),
    Cause("too_many_threads", "too many threads", 0.1, "{threads} threads on {processors}, {in_region}", "{fewer}"),
    Cause("affinity", "affinity", 0.1, "threads share processors while others are idle, {in_region}",
          "unbind the threads: OMP_PROC_BIND, OMP_PLACES, sched_setaffinity"),
    Cause("machine", "busy machine", 0.25, "other programs used the processors: record again on an idle machine"),
    Cause("efficient", "efficient", 0.0, "little: threads ran code {code} % of {time}{suspect}"),
)
BY_KIND = {cause.kind: cause for cause in TABLE}
ESTIMATED = ("memory", "allocation", "strides")     # by samples
# The short names of all that may be lost, with and without a cause.
NAMES = {**{cause.kind: cause.name for cause in TABLE}, "recorder": "recorder", "startup": "startup"}
EFFICIENT = 0.85        # of the threads' time in code, from which on nothing need be lost
BUSY = 0.1              # of the threads' time, from which on what other programs took is shown apart
SECOND = 0.1            # of the run's time, from which on a second cause is named
WORTH_A_CHANGE = 0.03   # the same of a change
