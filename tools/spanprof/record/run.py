"""Runs of the program with its own standard streams, recorded or not, and what the system and the processor counted
of them.

The counts are those of perf_event_open: silence where the machine, or its kernel, shows nobody.
"""
import ctypes
import math
import os
import platform
import re
import resource
import signal
import struct
import subprocess
import time
from contextlib import suppress
from typing import NamedTuple, Optional

from spanprof.command import NOT_EXECUTABLE, Console, Fault
from spanprof.head import counted

CONSOLE = Console("spanprof-record")
say, tell = CONSOLE.say, CONSOLE.tell
CALLS = {"x86_64": 298, "aarch64": 241}
# Types and numbers of the kernel's generic events.
EVENTS = {"cycles": (0, 0), "instructions": (0, 1), "cache_misses": (0, 3)}
DISABLED, INHERIT, NO_KERNEL, NO_HYPERVISOR, ON_EXEC = (1 << bit for bit in (0, 1, 5, 6, 12))
ENABLED_AND_RUNNING = 3     # these two times stand behind the count
CLOSED_ON_EXEC = 8
ATTRIBUTES = struct.Struct("=IIQQQQQIIQ")
PROCESSORS = "/sys/devices/system/cpu"
CGROUP = "/sys/fs/cgroup"
MOST = 0.8      # of the command's processor time: what the processor counted of it says something of this process
PASSED_ON = (signal.SIGTERM, signal.SIGHUP, signal.SIGQUIT)
# A program's own num_threads holds beside OMP_NUM_THREADS, but not beside the limit, of which LLVM's runtime warns.
ON_ONE = {"OMP_NUM_THREADS": "1", "OMP_THREAD_LIMIT": "1", "KMP_WARNINGS": "0"}


def attributes(kind, number):
    """Of an event that begins with the program that this process starts, for all of its threads and children."""
    return ATTRIBUTES.pack(kind, ATTRIBUTES.size, number, 0, 0, ENABLED_AND_RUNNING,
                           DISABLED | INHERIT | NO_KERNEL | NO_HYPERVISOR | ON_EXEC, 0, 0, 0)


def perf_event_open(asked):
    """A file, or less than 0."""
    number = CALLS.get(platform.machine())
    flags = ctypes.c_ulong(CLOSED_ON_EXEC)
    return ctypes.CDLL(None).syscall(ctypes.c_long(number), asked, 0, -1, -1, flags) if number else -1


def scaled(words):
    """A count, as of all the time where its event shared a counter of the processor; None where it never had one."""
    count, enabled, running = struct.unpack("=QQQ", words)
    return count * enabled // running if running else None


class Counters:
    """Counts what is started while it holds."""

    def __init__(self, events=None, start=perf_event_open):
        self.events, self.start, self.files = EVENTS if events is None else events, start, {}

    def __enter__(self):
        found = {name: self.start(attributes(*event)) for name, event in self.events.items()}
        self.files = {name: file for name, file in found.items() if file >= 0}
        return self

    def __exit__(self, *_):
        for file in self.files.values():
            os.close(file)

    def read(self):
        """By name, those that were counted."""
        found = {name: scaled(os.read(file, 24)) for name, file in self.files.items()}
        return {name: count for name, count in found.items() if count is not None}


def counter_words(counted):
    """A line of what was counted; nothing without it."""
    instructions, cycles, misses = map(counted.get, ("instructions", "cycles", "cache_misses"))
    reported = ["%.2f instructions per cycle" % (instructions / cycles)] if instructions and cycles else []
    if instructions and misses is not None:
        reported.append("%.1f cache misses per 1,000 instructions" % (1000 * misses / instructions))
    return [", ".join(reported) + " (measured)"] * bool(reported)


class Host(NamedTuple):
    """Since the machine started, in nanoseconds; the last two are of all processors, None where the kernel does not
    say."""
    suspended: int
    stolen: Optional[int] = None
    busy: Optional[int] = None


def stolen_and_busy(words):
    """By the first line of /proc/stat, in ticks; None where it has no such columns."""
    fields = words.split()
    if len(fields) <= 8 or fields[0] != "cpu":
        return None, None
    user, nice, system, _, _, irq, softirq, stolen = map(int, fields[1:9])
    return stolen, user + nice + system + irq + softirq


def host_now(stat="/proc/stat"):
    try:
        with open(stat, encoding="ascii") as file:
            ticks = stolen_and_busy(file.readline())
    except OSError:
        ticks = None, None
    suspended = time.clock_gettime_ns(time.CLOCK_BOOTTIME) - time.clock_gettime_ns(time.CLOCK_MONOTONIC)
    tick = 10 ** 9 // os.sysconf("SC_CLK_TCK")
    return Host(suspended, *(None if number is None else number * tick for number in ticks))


def sockets(processors, top=PROCESSORS):
    """How many packages these processors are in; None where the kernel does not say."""
    found = set()
    for number in processors:
        try:
            with open("%s/cpu%d/topology/physical_package_id" % (top, number), encoding="ascii") as file:
                found.add(file.read().strip())
        except OSError:
            return None
    return len(found) or None


def facts_of_host(first, last):
    """Of a run between two moments, with the names of recording.json."""
    stolen, busy = (None if None in pair else pair[1] - pair[0]
                    for pair in ((first.stolen, last.stolen), (first.busy, last.busy)))
    # The two clocks are read one after the other: what is less than a millisecond is no suspension.
    suspended = last.suspended - first.suspended
    return {"suspended_ns": suspended if suspended >= 10 ** 6 else 0, "stolen_ns": stolen, "busy_ns": busy,
            "host_processors": os.cpu_count(), "sockets": sockets(os.sched_getaffinity(0))}


def usage_of(used):
    """Of what wait4 tells of the program and its own children."""
    return {"user_ns": round(used.ru_utime * 1e9), "system_ns": round(used.ru_stime * 1e9),
            "minor_faults": used.ru_minflt, "peak_bytes": 1024 * used.ru_maxrss,
            "voluntary_switches": used.ru_nvcsw, "involuntary_switches": used.ru_nivcsw}


def processors_of_quota(words):
    """How many processors a group of processes may use by its file cpu.max, `400000 100000`; None where all."""
    found = re.fullmatch(r"(\d+) (\d+)\s*", words)
    return math.ceil(int(found.group(1)) / int(found.group(2))) if found and int(found.group(2)) else None


def quotas(group, top=CGROUP):
    """Of a group such as `/user.slice/mine` and of those that it is in."""
    while True:
        try:
            with open(top + group.rstrip("/") + "/cpu.max", encoding="ascii") as file:
                yield processors_of_quota(file.read())
        except OSError:
            pass  # the topmost one has none, and other versions of groups neither
        if group in ("", "/"):
            return
        group = os.path.dirname(group)


def own_group():
    try:
        with open("/proc/self/cgroup", encoding="utf-8") as file:
            found = re.search(r"^0::(/.*)$", file.read(), re.M)
    except OSError:
        return "/"
    return found.group(1) if found else "/"


def processors_there_are():
    """Those that this process, and so the program, may use."""
    return min(filter(None, [len(os.sched_getaffinity(0)), *quotas(own_group())]))


def threads_asked(variables):
    """What OMP_NUM_THREADS asks for outside of other regions; None where it asks for nothing."""
    first = variables.get("OMP_NUM_THREADS", "").partition(",")[0].strip()
    return int(first) if re.fullmatch(r"[0-9]{1,6}", first) and int(first) else None


def processor_time(usage):
    return usage.get("user_ns", 0) + usage.get("system_ns", 0)


def facts_of_run(ended, usage, variables, processors):
    """With the names of recording.json. `ended` is how the command ended, and `usage` that of the one process."""
    own = {name: number for name, number in usage.items() if name != "children_ns"}
    whole = processor_time(usage_of(ended.usage))
    return {"threads": {"asked": threads_asked(variables)}, "processors": processors, "elapsed_ns": ended.elapsed,
            "usage": own or None, "children_ns": usage.get("children_ns"), "host": {**ended.host, "command_ns": whole},
            "counters": ended.counters if ended.counters and processor_time(own) >= MOST * whole else None}


def with_others(first, others):
    return first + (os.pathsep + others if others else "")


def environment(base, options, library, preload, out):
    """The variables of a recorded run. What is not asked for stays as it is."""
    new = dict(base, OMP_TOOL="enabled", SPANPROF_OUT=out, SPANPROF_QUIET="1")
    new.pop("SPANPROF_RECORD", None)
    new["OMP_TOOL_LIBRARIES"] = with_others(library, base.get("OMP_TOOL_LIBRARIES"))
    if preload:
        new["LD_PRELOAD"] = with_others(preload, base.get("LD_PRELOAD"))
    asked = {"SPANPROF_UNIT": options.unit, "SPANPROF_CLOCK": options.clock, "OMP_NUM_THREADS": options.threads}
    new.update((name, str(value)) for name, value in asked.items() if value is not None)
    if options.call_paths:
        new["SPANPROF_CALL_PATHS"] = "1"
    return new


def without_recorder(base, preload, threads, library=""):
    """The variables of an unrecorded run: on the runtime of the recorded ones, which loads no tool. Of gcc's code it
    asks the recorder's library, which gives processors back (recorder/gcc_places.cpp there) and is no tool then."""
    new = dict(base, OMP_TOOL="disabled", OMP_NUM_THREADS=str(threads))
    if preload:
        new["LD_PRELOAD"] = with_others(preload, base.get("LD_PRELOAD"))
    if preload and library:
        new.update(OMP_TOOL="enabled", OMP_TOOL_LIBRARIES=library, SPANPROF_RECORD="0")
    return new


def rewind():
    """Where standard input is a file, each run reads it from its beginning."""
    try:
        os.lseek(0, 0, os.SEEK_SET)
    except OSError:
        pass  # a terminal or a pipe: later runs read what is left


class PassedOn:
    """While it holds, signals that would end this process go to the program, and how that ends decides.

    What the terminal sends goes to both already, so an interrupt is only outlived here. A signal that was ignored
    before, as under `nohup`, stays so, here and in the program.
    """

    def __init__(self):
        self.pid, self.early, self.before = None, [], {}

    def hand_on(self, number, _):
        if self.pid is None:
            self.early.append(number)
        else:
            self.send(number)

    def to(self, pid):
        """None once it has ended."""
        self.pid = pid
        for number in self.early if pid else ():
            self.send(number)

    def send(self, number):
        with suppress(ProcessLookupError):      # it may have ended
            os.kill(self.pid, number)

    def __enter__(self):
        handlers = {number: self.hand_on for number in PASSED_ON}
        handlers[signal.SIGINT] = lambda number, _: None
        for number, handler in handlers.items():
            if signal.getsignal(number) != signal.SIG_IGN:
                self.before[number] = signal.signal(number, handler)
        return self

    def __exit__(self, *_):
        for number, handler in self.before.items():
            signal.signal(number, handler)


class Ended(NamedTuple):
    """`status` is the exit status, or less than 0 the signal; `elapsed` is in nanoseconds; `host` is of the machine;
    `counters` are of the processor, where they were asked for. `usage` is that of the programs that it started too."""
    status: int
    elapsed: int
    usage: resource.struct_rusage
    host: dict = {}
    counters: dict = {}
    process: int = 0


def begun(path, words, variables):
    try:
        return subprocess.Popen(words, executable=path, env=variables, close_fds=False)
    except FileNotFoundError as wrong:
        raise Fault("%s: the interpreter or loader that it names is not there" % path, NOT_EXECUTABLE) from wrong
    except OSError as wrong:
        raise Fault("%s: %s" % (path, wrong.strerror), NOT_EXECUTABLE) from wrong


def watched(path, words, variables):
    """How the program ended, how long it took, what the system counted of it, and what the machine did meanwhile."""
    with PassedOn() as passed_on:
        before, since = host_now(), time.perf_counter_ns()
        process = begun(path, words, variables)
        passed_on.to(process.pid)
        _, status, usage = os.wait4(process.pid, 0)
        passed_on.to(None)
        elapsed = time.perf_counter_ns() - since
        process.returncode = os.waitstatus_to_exitcode(status)
        return Ended(process.returncode, elapsed, usage, facts_of_host(before, host_now()), process=process.pid)


def signal_name(status):
    try:
        return signal.Signals(-status).name
    except ValueError:
        return "signal %d" % -status


def end_as(status):
    """Ends this process as the program has ended, by a signal too; without a core file of its own."""
    if status < 0:
        resource.setrlimit(resource.RLIMIT_CORE, (0, 0))
        if -status != signal.SIGKILL:
            signal.signal(-status, signal.SIG_DFL)
        os.kill(os.getpid(), -status)
    raise SystemExit(status if status >= 0 else 128 - status)


class Failed(Exception):
    """A run ended with another status than 0."""

    def __init__(self, what, status):
        how = "by " + signal_name(status) if status < 0 else "with status %d" % status
        super().__init__("%s ended %s" % (what, how))
        self.status = status


def unrecorded(session, numbers, runs):
    """Elapsed times of the whole program in nanoseconds by number of threads. Each turn has a run on each number, so
    that a machine that becomes slower does so for all of them."""
    times = {threads: [] for threads in numbers}
    for turn in range(1, runs + 1):
        for threads in times:
            this = "unrecorded run %d of %d on %s" % (turn, runs, counted(threads, "thread"))
            tell(this)
            rewind()
            variables = without_recorder(os.environ, session.preload, threads, session.library)
            variables.update(ON_ONE if threads == 1 else {})
            ended = watched(session.path, session.options.command, variables)
            if ended.status:
                raise Failed(this, ended.status)
            times[threads].append(ended.elapsed)
    return times
