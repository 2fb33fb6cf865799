"""Self-checking programs: C and C++ files that judge for themselves what the language of the texts cannot say.

Each stands in self_checking/, named for what it shows. Its first comment says that; `// openmp:` names sections of
OpenMP 5.2, and `// env:` the variables that it needs. Status 0: as the standard says; 1: not so, and each line that it
prints says what was seen and what is right.
"""
import collections
import fnmatch
import os
import pathlib
import re
import subprocess
import time
from dataclasses import dataclass

from spanprof.conformance.data import DATA
from spanprof.conformance.judge.cases import Case, Failure, Tally
from spanprof.conformance.judge.explain import without_places
from spanprof.conformance.judge.verdicts import Verdict
from spanprof.conformance.run import perturb
from spanprof.conformance.run.launch import SETTINGS, breakdown, is_of_harness
from spanprof.conformance.run.toolchain import BuildFailed

FOLDER = DATA / "self_checking"
VARIANT = "self-checking"
INCLUDED = '#include "expect.h"\n'
RUNS = 2                # on each number of threads; each run has rounds of its own
LOOKS, APART = 6, 0.1   # at the threads of a program that hangs, and the seconds between them
MOST_LINES = 3
SOONER, LONGEST = 3, 12  # a third of the time is enough where a program sleeps, and many times as long is given
BROKEN_DOWN = ("internal compiler error", "PLEASE submit a bug report")
TICKS = slice(11, 13)   # of the fields behind a thread's name in /proc: its time in user and in system code
SLEEPS = "S"            # the first of these fields; a thread that waits for a processor, or has ended, has another


@dataclass(frozen=True)
class SelfChecking:
    """What the head of a file says."""
    name: str
    shows: str
    sections: tuple
    variables: tuple    # pairs of a name and a value

    @property
    def case(self):
        return Case(self.name, (), VARIANT, 0)


def files():
    return sorted([*FOLDER.glob("*.c"), *FOLDER.glob("*.cpp")])


def read(path):
    head = re.match(r"(?://.*\n)+", path.read_text()).group()
    lines = [line.removeprefix("//").strip() for line in head.splitlines()]
    keyed = {key: [line.removeprefix(key).strip() for line in lines if line.startswith(key)]
             for key in ("openmp:", "env:")}
    shows = " ".join(line for line in lines if not line.startswith(("openmp:", "env:")))
    sections = tuple(section.strip() for line in keyed["openmp:"] for section in line.split(","))
    return SelfChecking(path.stem, shows, sections,
                        tuple(tuple(word.split("=", 1)) for line in keyed["env:"] for word in line.split()))


def programs():
    return [read(path) for path in files()]


def path_of(name):
    return next(path for path in files() if path.stem == name)


def source(name):
    """One file that needs no other: `expect.h` stands where it was included."""
    return path_of(name).read_text().replace(INCLUDED, (FOLDER / "expect.h").read_text())


def cases(pattern):
    """Of the programs whose names fit a pattern of the shell's."""
    return [program.case for program in programs() if fnmatch.fnmatchcase(program.name, pattern)]


def is_self_checking(case):
    return case.variant == VARIANT


def try_case(bench, case, all_conditions):
    """A tally for each of the conditions."""
    try:
        program = bench.toolchain.build_alone(source(case.name), case.name, path_of(case.name).suffix)
    except BuildFailed as refused:
        return [not_built(case, c, str(refused)) for c in all_conditions]
    reported, tallies = read(path_of(case.name)), []
    for conditions in all_conditions:
        tallies.append(tally(bench, case, reported, program, conditions))
        if tallies[-1].expected:    # what is known takes no more time
            break
    return tallies


def not_built(case, conditions, said):
    """A compiler may lack a construct; that it breaks down is a failure."""
    if any(words in said for words in BROKEN_DOWN):
        verdict = Verdict("not built", said)
        return Tally(conditions, failures=[Failure(case, conditions, verdict, "not built", said, None)])
    error = next((line for line in said.splitlines() if "error: " in line), said).partition("error: ")[2]
    return Tally(conditions, expected=collections.Counter({f"{case.name} is not built: {error}": 1}))


def tally(bench, case, reported, program, conditions):
    out = Tally(conditions)
    for _ in range(min(RUNS, conditions.runs)):
        verdict = run(program, reported, conditions, bench.environment)
        out.runs += 1
        for section in reported.sections:
            out.coverage.update([(VARIANT, section, "waits")] + [(VARIANT, section, "held")] * (conditions.threads > 1))
        if not verdict.accepted:
            out.failures.append(failure(case, reported, conditions, verdict))
        if verdict.kind in ("hung", "crashed"):
            break
    return bench.expectations.settled(out)


def failure(case, reported, conditions, verdict):
    """A hang of a program is told apart from that of another by its name, all else by what the program says."""
    rule = case.name if verdict.kind == "hung" else rule_of(verdict.detail)
    return Failure(case, conditions, verdict, rule, f"{verdict.detail}. Expected: {reported.shows} (OpenMP 5.2, "
                                                    f"{', '.join(reported.sections)})", None)


def rule_of(detail):
    """What is right, without numbers that differ from run to run."""
    return without_places(re.sub(r": (-?\d+|it) was .*", "", detail.split("\n")[0]))


def run(program, reported, conditions, environment):
    """The verdict on one run."""
    setting = SETTINGS[conditions.setting]
    words = [word.format(processor=0) for word in setting.words]
    variables = {name: value for name, value in setting.variables.items() if not is_of_harness(name)}
    variables.update(reported.variables, OMP_NUM_THREADS=str(conditions.threads),
                     **perturb.variables(conditions.perturb))
    with subprocess.Popen([*words, str(program)], stdout=subprocess.PIPE, stderr=subprocess.PIPE, text=True,
                          errors="replace", env={**environment, **variables}) as process:
        ended, how = ended_in(process, conditions.timeout)
        if not ended:
            process.kill()
            process.communicate()
            return Verdict("hung", how)
    return verdict_on(process.returncode, *ended)


def ended_in(process, seconds):
    """What a process has written when it ends, or how it hangs: for a part of so many seconds all its threads sleep, or
    it has napped and run for so many, or it takes many times as long where others have the processors."""
    begun, napped = time.monotonic(), 0
    while True:
        try:
            return process.communicate(timeout=seconds / SOONER), ""
        except subprocess.TimeoutExpired:
            looks, took = looks_at(process.pid), time.monotonic() - begun
            if is_asleep(looks):
                return None, "asleep"
            napped += seconds / SOONER * share_asleep(looks)
            if took > LONGEST * seconds or min(took, napped + processor_time(looks)) > seconds:
                return None, "busy"


def verdict_on(status, written, complaints):
    if status == 0:
        return Verdict("accepted")
    lines = list(dict.fromkeys(written.splitlines()))
    if status == 1 and lines:
        return Verdict("wrong", "\n".join(lines[:MOST_LINES]))
    return Verdict("crashed", breakdown("", status, complaints))


def looked_at(pid):
    """The states of a process's threads, and the processor time that each has taken."""
    stats = [path.read_text().rpartition(")")[2].split() for path in pathlib.Path(f"/proc/{pid}/task").glob("*/stat")]
    return {fields[0] for fields in stats}, [fields[TICKS] for fields in stats]


def looks_at(pid):
    """Some looks at a process; none where a thread ends meanwhile."""
    looks = []
    try:
        for _ in range(LOOKS):
            looks.append(looked_at(pid))
            time.sleep(APART)
    except OSError:
        return []
    return looks


def processor_time(looks):
    """In seconds, of all threads so far."""
    return sum(int(ticks) for _, threads in looks[-1:] for times in threads for ticks in times) / \
        os.sysconf("SC_CLK_TCK")


def share_asleep(looks):
    """In how many of the looks each thread sleeps, of 1."""
    return sum(states == {SLEEPS} for states, _ in looks) / LOOKS


def is_asleep(looks):
    """Whether each thread sleeps all the time."""
    return share_asleep(looks) == 1 and all(look == looks[0] for look in looks)
