"""How programs are started, by words before a program's own, and variables of the environment; runs a built program,
and reads the logs that it writes.
"""
import os
import subprocess
from dataclasses import dataclass, field

from spanprof.conformance.run import perturb


@dataclass(frozen=True)
class Setting:
    """`shows` says what it is for; `families` are the runtimes that it is for."""
    shows: str
    variables: dict = field(default_factory=dict)
    words: tuple = ()
    families: tuple = ("gomp", "kmp")

    def reported(self):
        """What a report says of it."""
        reported = [" ".join(self.words), *(f"{name}={value}" for name, value in self.variables.items())]
        return f"{self.shows}: `{' '.join(filter(None, reported))}`" if any(reported) else self.shows


# A runtime that reads memory before it writes it, or after it gave it back, finds no zeros there. The variable is that
# of the C library of GNU.
OVERWRITTEN = {"MALLOC_PERTURB_": "170"}


def overwriting(shows, variables=(), **others):
    """A setting in which memory that is allocated or freed is overwritten too."""
    return Setting(shows, {**dict(variables), **OVERWRITTEN}, **others)


def barriers(shows, form):
    """A setting in which all barriers of LLVM's runtime have another form than by itself."""
    kinds = ("PLAIN", "FORKJOIN", "REDUCTION")
    return overwriting(shows, {f"KMP_{kind}_BARRIER_PATTERN": f"{form},{form}" for kind in kinds}, families=("kmp",))


SETTINGS = {
    "free": Setting("as the runtime is by itself"),
    "priorities": overwriting("priorities count", {"OMP_MAX_TASK_PRIORITY": "9"}),
    "pinned": overwriting("all threads on one processor", words=("taskset", "-c", "{processor}")),
    "bound": overwriting("each thread on its processor", {"OMP_PROC_BIND": "close", "OMP_PLACES": "threads"}),
    "active": overwriting("waiting threads spin", {"OMP_WAIT_POLICY": "active"}),
    "passive": overwriting("waiting threads sleep", {"OMP_WAIT_POLICY": "passive"}),
    "sleepy": overwriting("waiting threads sleep at once", {"GOMP_SPINCOUNT": "0", "KMP_BLOCKTIME": "0"}),
    "perturbed": overwriting("memory is overwritten when it is allocated or freed"),
    "stacks": overwriting("threads have small stacks", {"OMP_STACKSIZE": "1M"}),
    "unlogged": Setting("threads share no counter of events; values and ends are judged", {"CONFORMANCE_LOG": "none"}),
    "hurried": Setting("threads share no counter of events, and sleep at once wherever they wait",
                       {"CONFORMANCE_LOG": "none", "GOMP_SPINCOUNT": "0", "KMP_BLOCKTIME": "0"}),
    "interrupted": Setting("threads are delayed at random moments, also inside the runtime",
                           {"CONFORMANCE_INTERRUPTS": "1", "GOMP_SPINCOUNT": "0", "KMP_BLOCKTIME": "0"}),
    "orphaned": overwriting("outside of any parallel region", {"CONFORMANCE_TEAM": "orphaned"}),
    "nested": overwriting("in a region inside another one", {"CONFORMANCE_TEAM": "nested"}),
    "cancellable": overwriting("cancelling counts; in a region that is cancelled at its end",
                               {"OMP_CANCELLATION": "true", "CONFORMANCE_TEAM": "cancellable"}),
    "unthrottled": overwriting("queues of ready tasks grow", {"KMP_ENABLE_TASK_THROTTLING": "0"}, families=("kmp",)),
    "unconstrained": overwriting("threads take any task", {"KMP_TASK_STEALING_CONSTRAINT": "0"}, families=("kmp",)),
    "linear": barriers("one thread gathers all others at barriers", "linear"),
    "trees": barriers("threads gather in trees at barriers", "tree"),
}


def settings_of(family):
    """The names of those that are for a runtime."""
    return [name for name, setting in SETTINGS.items() if family in setting.families]


OF_HARNESS = "CONFORMANCE_"     # how variables begin that only programs with the harness read


def without_harness(names):
    """Those of some settings that mean something to a program without the harness."""
    own = [name for name in names if not any(map(is_of_harness, SETTINGS[name].variables))]
    return own or ["free"]


def is_of_harness(variable):
    return variable.startswith(OF_HARNESS)


@dataclass
class Log:
    """One run: its events, as lines of a replay document, and how it ended."""
    number: int
    schedule: str = ""
    events: list = field(default_factory=list)
    end: str = "crashed"  # done, hung or crashed
    detail: str = ""      # the digest, or how it hung or broke down
    unlogged: bool = False  # whether the events are told apart from their order
    stacks: list = field(default_factory=list)  # of a run that hung, as a debugger's lines
    discarded: list = field(default_factory=list)  # segments of tasks that were discarded, whose events were added
    wrong: str = ""       # what the program itself saw to be wrong first
    value: str = ""       # of the first segment with a wrong value: its number, what it computed, and what is right
    turns: list = field(default_factory=list)  # of taskloops: the first segment of one, and of the first of its task


@dataclass(frozen=True)
class Conditions:
    """How a program is run."""
    threads: int
    runs: int
    seed: int             # 0: no delays
    unit: int             # what a cost of 1 lasts, in nanoseconds
    timeout: int          # in seconds, without an event until a run hangs
    setting: str = "free"
    perturb: str = ""     # the seed by which the runtime is delayed, and where, as perturb/hold.c reads it

    def words(self):
        return [str(n) for n in (self.threads, self.runs, self.seed, self.unit, self.timeout)]


LONGEST = 11  # times as long as a run may log nothing: more than harness/watch.c gives it
SANITIZED = "SUMMARY: "
ENDS = {"done": "done", "hung": "hung", "signal": "crashed", "runaway:": "crashed"}
RUNAWAY = "runaway:"  # and how; else the detail of a crash is a signal's number


def read_logs(text):
    """The logs in what a program wrote. One without an end is that of a run in which the program broke down."""
    logs = []
    for line in text.split("\n"):
        word, _, rest = line.partition(" ")
        if word == "run":
            number, *more = rest.split()
            logs.append(Log(int(number), more[0] if more else "", unlogged="unlogged" in more[1:]))
        elif word in ENDS and logs:
            logs[-1].end, logs[-1].detail = ENDS[word], line if word == RUNAWAY else rest
        elif word == "stack" and logs:
            logs[-1].stacks.append(rest)
        elif word in ("wrong", "value") and logs:
            setattr(logs[-1], word, rest)
        elif word == "turn" and logs:
            logs[-1].turns.append([int(number) for number in rest.split()])
        elif word in ("start", "finish", "overflow") and logs:
            logs[-1].events.append(line)
    return logs


def launch(program, conditions, environment):
    """The logs of all runs; after a hang or a crash the rest is not run."""
    written, complaints, status = run_to_end(program, conditions, environment)
    logs = read_logs(written)
    if status != 0 and (not logs or logs[-1].end == "done"):
        logs.append(Log(len(logs)))
    for log in logs:
        if log.end == "crashed" and not log.detail.startswith(RUNAWAY):
            log.detail = breakdown(log.detail, status, complaints)
            log.end = "hung" if status is None else "crashed"
    return logs


def command_of(program, conditions):
    """The words with which a program is started, and what its environment has besides."""
    setting = SETTINGS[conditions.setting]
    processors = sorted(os.sched_getaffinity(0))
    processor = processors[conditions.seed % len(processors)]
    words = [word.format(processor=processor) for word in setting.words]
    reported = {**setting.variables, **perturb.variables(conditions.perturb)}
    return [*words, str(program), *conditions.words()], reported


def run_to_end(program, conditions, environment):
    """What a program wrote, on both streams, and its status: None if it had to be killed, since it did not even give
    up by itself."""
    words, variables = command_of(program, conditions)
    with subprocess.Popen(words, stdout=subprocess.PIPE, stderr=subprocess.PIPE, text=True,
                          env={**environment, **variables}) as process:
        try:
            written, complaints = process.communicate(timeout=(conditions.runs + LONGEST) * conditions.timeout)
            return written, complaints, process.returncode
        except subprocess.TimeoutExpired:
            process.kill()
            return *process.communicate(), None


def breakdown(signal, status, complaints):
    """How a program broke down: its signal or status, and the line that says most of its complaint."""
    if status is None:
        return ""
    how = f"signal {signal or -status}" if signal or status < 0 else f"status {status}"
    line = complaint_of(complaints)
    return f"{how}: {line}" if line else how


def complaint_of(complaints):
    """The first line with words, or the last word of a sanitizer."""
    lines = [line.strip()[:200] for line in complaints.split("\n") if any(map(str.isalpha, line))]
    return next((line for line in lines if line.startswith(SANITIZED)), lines[0] if lines else "")
