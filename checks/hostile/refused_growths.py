#!/usr/bin/env python3
"""Refuses the allocations of a program one by one: the first, the second, .., until a run meets none. Runs go side by
side, one for each processor.

    refused_growths.py commands [PROGRAM]    the ten commands of crates/spanprof/out/spanprof, or of this program
    refused_growths.py large [PROGRAM]       crates/spanprof_large/out/spanprof_large, or this program
    refused_growths.py library PROGRAM       the program of checks/agree/library/ask.c, which calls libspanprof: of
                                             each call the first 200 allocations, and every 23rd after them
    refused_growths.py tests                 the tests of crates/refused_growths, as `rt test` there built them
    refused_growths.py gate                  counts what the same tests refuse by themselves, as in the gate

A command is run with that one allocation refused, and with all from it on refused. It writes what it writes with ample
memory and ends with that status, or writes `error: out of memory` and ends with status 3. A test is run with the one
allocation refused, and passes. Anything else is a wrong answer, as are a crash, a run of more than 60 seconds, and a
test or a command that meets no allocation. The start of a thread is an allocation too.

With `gate` nothing is refused from outside. Of each test in which little memory is left it says how many allocations
were the first that was refused, and which were not. A block that grows and is already long enough, which the C library
never refuses, is told apart.

The exit status is 1 where any answer was wrong, where a program is missing, or where nothing was run. It needs a C
compiler, for refuse.c and refused_first.c.
"""

import os
import re
import subprocess
import sys
import tempfile
from concurrent.futures import ThreadPoolExecutor
from itertools import chain, count, islice
from pathlib import Path

HERE = Path(__file__).resolve().parent
TOP = HERE.parents[1]
SECONDS = 60
OUT_OF_MEMORY = b"error: out of memory\n"

WORKED = "omptasks 1\nwork 5 task { work 3 } work 2 taskwait work 1\n"
TIMES = "times 2 0 14\n0 0 0 5\n1 0 6 9\n2 0 9 11\n3 1 12 13"
IN_ORDER = "start 0 0 finish 0 0 start 0 2 finish 0 2 start 1 1 finish 1 1 start 0 3 finish 0 3"
CLAIM = "end 9 start 0 0 start 1 5 start 2 5 start 3 8 chain 0 1 3"
WRONG_CLAIM = "end 9 start 0 0 start 1 5 start 2 5 start 3 7 chain 0 1 3"
DEEP = ("omptasks 1\nwork 1\ntask depend(in: a, b, c) depend(out: d, e, f) {\ntaskgroup { task if(0) { work 2 } }\n"
        "task { work 3 task { work 4 task { task { taskgroup { work 5 } } } } }\nwork 13\n}\n"
        "task depend(in: d) { work 1 }\ntaskwait\n")
MANY_RUNS = "omptasks 2\nfor i 1 256 { task { work 1 } }\n"  # its curve is made on more than one thread
LOOPS = "omptasks 2\nfor i 1 3 { task depend(in: x[i-1]) depend(out: x[i]) { work 2 } }\n"


def built(folder, name):
    """The library of a C file of this folder."""
    library = str(Path(folder, f"{name}.so"))
    source = str(HERE / f"{name}.c")
    words = ["cc", "-shared", "-fPIC", "-O1", "-Wall", "-Wextra", "-o", library, source, "-ldl"]
    subprocess.run(words, check=True)
    return library


class Refuser:
    """The library, and runs under it."""

    def __init__(self, folder, step=1):
        self.library = built(folder, "refuse")
        self.step = step
        self.runs = self.refusals = self.wrong = 0

    def numbers(self):
        """Which allocations are refused: all, or of those after the 200th one in so many."""
        return chain(range(1, 201), count(201, self.step))

    def run(self, words, text, number, later):
        """The status, standard output, and how many allocations were refused, at the allocation of this number."""
        env = {**os.environ, "LD_PRELOAD": self.library, "REFUSE": str(number)}
        if later:
            env["REFUSE_LATER"] = "yes"
        try:
            ran = subprocess.run(words, input=text, capture_output=True, env=env, timeout=SECONDS, check=False)
        except subprocess.TimeoutExpired:
            return "no end", b"", 1
        return ran.returncode, ran.stdout, ran.stderr.count(b"refused\n")

    def runs_until_none(self, words, text, later):
        """Each number with its run, until a run meets no such allocation or does not end."""
        numbers, side_by_side = self.numbers(), len(os.sched_getaffinity(0))
        with ThreadPoolExecutor(side_by_side) as pool:
            while True:
                batch = list(islice(numbers, 8 * side_by_side))
                for number, ran in zip(batch, pool.map(lambda at: self.run(words, text, at, later), batch)):
                    self.runs += 1
                    if ran[2] == 0:
                        return
                    self.refusals += 1
                    yield number, *ran[:2]
                    if ran[0] == "no end":
                        return

    def refuse_each(self, name, words, text, is_right, ways):
        """Refuses allocation after allocation in each way, and says how many were refused."""
        counts = []
        for later in ways:
            counts.append(0)
            for number, status, written in self.runs_until_none(words, text, later):
                counts[-1] += 1
                if not is_right(status, written):
                    self.wrong += 1
                    what = "this allocation and all later ones" if later else "this allocation"
                    print(f"WRONG: {name}, {what} refused: {number}: status {status}: {written[:200]!r}", flush=True)
        if 0 in counts:
            self.wrong += 1
            print(f"WRONG: {name}: it met no allocation", flush=True)
        print(f"{name}: allocations refused: {', '.join(map(str, counts))}", flush=True)


def command(refuser, program, words, text):
    """Refuses each allocation of a command."""
    text = text.encode()
    full = subprocess.run([program, *words], input=text, capture_output=True, timeout=SECONDS, check=False)
    if full.returncode not in (0, 1, 2) or full.stderr:
        raise SystemExit(f"FAILED: {' '.join(words)} with ample memory: status {full.returncode}: "
                         f"{full.stderr[:200]!r}")

    def is_right(status, written):
        return (status, written) in ((3, OUT_OF_MEMORY), (full.returncode, full.stdout))

    name = f"{' '.join(words) or 'no word'} ({len(text)} bytes, status {full.returncode})"
    refuser.refuse_each(name, [program, *words], text, is_right, (False, True))


def commands(refuser, program):
    """Every command on the worked program, every kind of refusal, loops, and a larger program."""
    certificate = subprocess.run([program, "certify"], input=WORKED.encode(), capture_output=True, check=True)
    larger = (TOP / "examples/matrix_product.tasks").read_text()
    for words in ("", "span", "show", "slack", "greedy --threads 2", "curve --upto 2", "whatif 2=4 1=5", "certify"):
        command(refuser, program, words.split(), WORKED)
    for workers in (1, 2, 8):
        command(refuser, program, ["run", "--workers", str(workers)], WORKED)
    command(refuser, program, ["check"], certificate.stdout.decode())
    command(refuser, program, ["replay"], f"{WORKED}---\n{IN_ORDER}\n")
    for words, text in (
        ("replay", f"{WORKED}---\nstart 0 0 finish 0 0 start 0 2 finish 0 2 start 0 3\n"),
        ("replay", f"{WORKED}---\nstart 0 0 start\n"),
        ("check", f"{WORKED}---\n{WRONG_CLAIM}\n"),
        ("check", WORKED),
        ("help", WORKED),
        ("greedy --threads 0", WORKED),
        ("curve --upto 1025", WORKED),
        ("run --workers 65", WORKED),
        ("whatif 2=4 4=1", WORKED),
        ("span", "omptasks 1\ntask {"),
        ("certify", "omptasks 1\ntask {"),
        ("span", LOOPS),
        ("show", LOOPS),
        ("curve --upto 256", MANY_RUNS),
    ):
        command(refuser, program, words.split(), text)
    for words in ("span", "show", "slack", "greedy --threads 4", "curve --upto 4", "whatif 1=7", "certify",
                  "run --workers 2"):
        command(refuser, program, words.split(), larger)


def large(refuser, program):
    """The program for texts of any size: each of its reports, and every kind of refusal."""
    larger = (TOP / "examples/matrix_product.tasks").read_text()
    for words in ("", "--upto 2", "slack", "greedy --threads 2", "curve --upto 2", "whatif 2=4 1=5", "show", "certify"):
        for text in (WORKED, DEEP, larger):
            command(refuser, program, words.split(), text)
    for words, text in (
        ("", "omptasks 1\ntask {"),
        ("--upto 2", "omptasks 1\ntask {"),
        ("", LOOPS),
        ("", ""),
        ("help", WORKED),
        ("--upto 0", WORKED),
        ("--upto 1025", WORKED),
        ("slack", "omptasks 1\ntask {"),
        ("show", "omptasks 1\ntask {"),
        ("greedy --threads 0", WORKED),
        ("whatif 2=4 4=1", WORKED),
    ):
        command(refuser, program, words.split(), text)
    account(refuser, program)
    replay(refuser, program)
    listed(refuser, program)
    places(refuser, program)
    relaxation(refuser, program)
    check_any_size(refuser, program)


def listed(refuser, program):
    """Lists of changes: one that is made, and every kind of refusal."""
    for text in (f"{WORKED}---\n2=4\n\n1=5\n", WORKED, "omptasks 1\ntask {", f"{WORKED}---\n2=4 1=5\n",
                 f"{WORKED}---\n2=4\n4=1\n", f"{WORKED}---\n2={10 ** 15 + 1}\n", f"{WORKED}---\n2={10 ** 15}\n"):
        command(refuser, program, ["whatif", "--listed"], text)


def places(refuser, program):
    """Places: some that are reported, and every kind of refusal."""
    for text in (f"{WORKED}---\n0 1 0 0\n", WORKED, "omptasks 1\ntask {", f"{WORKED}---\n0 1 0 4\n",
                 f"{WORKED}---\n0 1 0\n", f"{WORKED}---\n0 1 0 0\n---\n{TIMES}\n",
                 f"{WORKED}---\n0 1 0 0\n---\ntimes 2 0 14\n"):
        command(refuser, program, ["places"], text)


def relaxation(refuser, program):
    """Changed programs: one that waits for no more, and every kind of refusal."""
    for old, new in ((WORKED, f"---\n{WORKED}"), (WORKED, ""), ("omptasks 1\ntask {", ""),
                     (WORKED, "---\nomptasks 1\ntask {"), (WORKED, "---\nomptasks 1\n"),
                     (WORKED, f"---\n{WORKED.replace('work 5', 'work 4')}"),
                     (WORKED, f"---\n{WORKED.replace('task {', 'task if(0) {')}")):
        command(refuser, program, ["relaxation"], f"{old}\n{new}")


def check_any_size(refuser, program):
    """Certificates of any size: one that holds, and every kind of refusal."""
    for text in (
        f"{WORKED}---\n{CLAIM}\n",
        WORKED,
        "omptasks 1\ntask {",
        f"{WORKED}---\n{CLAIM} x\n",
        f"{WORKED}---\n{CLAIM} 4\n",
        f"{WORKED}---\n{CLAIM.replace('start 2 5', 'start 2 4')}\n",
        f"{WORKED}---\n{CLAIM.replace('end 9', 'end 8')}\n",
        f"{WORKED}---\n{CLAIM.replace('0 1 3', '0 3')}\n",
        f"{WORKED}---\n{CLAIM.replace('0 1 3', '0 2 3')}\n",
    ):
        command(refuser, program, ["check"], text)


def account(refuser, program):
    """Timed documents: the three reports, and every kind of refusal."""
    for words, text in (
        ("account", f"{WORKED}---\n{TIMES}\n"),
        ("account --rows", f"{WORKED}---\n{TIMES}\n"),
        ("account --path", f"{WORKED}---\n{TIMES}\n"),
        ("account", WORKED),
        ("account", "omptasks 1\ntask {"),
        ("account --rows", f"{WORKED}---\n{TIMES}\n{TIMES}\n"),
        ("account --rows", f"{WORKED}---\ntimes 2 0 14\n0 0 0 5\n"),
        ("account --path", f"{WORKED}---\n{TIMES.replace('9 11', '4 11')}\n"),
        ("account --path", f"{WORKED}---\n{TIMES.replace('9 11', '8 11')}\n"),
        ("account --rows --path", WORKED),
    ):
        command(refuser, program, words.split(), text)


def replay(refuser, program):
    """Replay documents: one report, and every kind of refusal."""
    for text in (f"{WORKED}---\n{IN_ORDER}\n", WORKED, "omptasks 1\ntask {", f"{WORKED}---\nstart 0 0 start\n",
                 f"{WORKED}---\nstart 0 0 finish 0 0 start 0 2 finish 0 2 start 0 3\n"):
        command(refuser, program, ["replay"], text)


def library(refuser, program):
    """What calls libspanprof: each of its functions, and refusals."""
    larger = (TOP / "examples/matrix_product.tasks").read_text()
    for words in ("span", "slack", "greedy --threads 2", "curve --upto 3", "whatif 1=4"):
        for text in (WORKED, LOOPS, larger):
            command(refuser, program, words.split(), text)
    for words, text in (("span", "omptasks 1\ntask {"), ("greedy --threads 0", WORKED), ("curve --upto 0", WORKED),
                        (f"whatif 1={10 ** 15}", WORKED), ("any span", DEEP), ("any greedy --threads 2", larger),
                        ("any slack", WORKED), ("any span", "omptasks 1\ntask {"),
                        ("account --rows", f"{WORKED}---\n{TIMES}\n"),
                        ("account", f"{WORKED}---\n{TIMES.replace('9 11', '4 11')}\n"),
                        ("check", f"{WORKED}---\n{CLAIM}"), ("any check", f"{WORKED}---\n{CLAIM}"),
                        ("any check", f"{WORKED}---\n{WRONG_CLAIM}")):
        command(refuser, program, words.split(), text)


def named(program, module):
    """The tests of a module."""
    listed = subprocess.run([program, "--list"], capture_output=True, check=True).stdout.decode()
    return [line.removesuffix(": test") for line in listed.splitlines() if line.startswith(f"tests::{module}::")]


def tests(refuser, program):
    """The tests in which one allocation may be refused."""
    for name in named(program, "one_growth"):
        refuser.refuse_each(name, [program, name], b"", lambda status, written: status == 0, (False,))


COUNTED = re.compile(r"^first: (\d+) of (\d+); not:(.*)$", re.M)


def room_enough(size):
    """Whether the smallest block of the C library, of 24 bytes, holds this many."""
    return size <= 24


def counted_of(library, program, name):
    """How many allocations of a test were refused first, how many it met, the others; None where the test failed."""
    ran = subprocess.run([program, name], capture_output=True, env={**os.environ, "LD_PRELOAD": library}, check=False)
    counted = COUNTED.search(ran.stderr.decode())
    if ran.returncode or not counted:
        return None
    return int(counted[1]), int(counted[2]), counted[3].split()


def gate(library, program):
    """Counts what the tests refuse by themselves; false where one failed, or refused nothing."""
    is_right = True
    for name in named(program, "little_memory"):
        counted = counted_of(library, program, name)
        if counted is None or counted[0] == 0:
            is_right = False
            print(f"WRONG: {name}: it failed, or refused nothing", flush=True)
            continue
        first, met, others = counted
        sizes = [re.search(r"\((.)(\d+)\)", other) for other in others]
        needless = [size[1] == "r" and room_enough(int(size[2])) for size in sizes]
        left = " ".join(other for other, is_needless in zip(others, needless) if not is_needless)
        print(f"{name}: {first} of {met} allocations, {sum(needless)} cannot be, not: {left or 'none'}", flush=True)
    return is_right


def main():
    kind, *given = sys.argv[1:] or ["commands"]
    kinds = {
        "commands": (commands, "crates/spanprof/out/spanprof", "tools/prove_program.sh"),
        "large": (large, "crates/spanprof_large/out/spanprof_large", "tools/prove_program.sh spanprof_large"),
        "library": (library, "out/library/ask", "checks/agree/library.sh"),
        "tests": (tests, "crates/refused_growths/out/refused_growths_tests", "`rt test` in crates/refused_growths"),
        "gate": (gate, "crates/refused_growths/out/refused_growths_tests", "`rt test` in crates/refused_growths"),
    }
    if kind not in kinds:
        raise SystemExit(__doc__)
    refuse, program, how = kinds[kind]
    program = Path(given[0] if given else TOP / program).resolve()
    if not os.access(program, os.X_OK):
        raise SystemExit(f"FAILED: there is no program {program}: {how} makes it")
    with tempfile.TemporaryDirectory() as folder:
        if kind == "gate":
            raise SystemExit(not gate(built(folder, "refused_first"), str(program)))
        refuser = Refuser(folder, 23 if kind == "library" else 1)
        refuse(refuser, str(program))
        print(f"{refuser.runs} runs, {refuser.refusals} with a refused allocation, {refuser.wrong} wrong")
        raise SystemExit(refuser.wrong > 0 or refuser.refusals == 0)


main()
