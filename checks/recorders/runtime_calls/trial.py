"""One program: built, run as it is, run under the oracle, recorded, and what the two tell compared."""
import glob
import os
import shutil
import subprocess
import sys
from dataclasses import dataclass

import asked

sys.path.append(os.path.join(os.path.dirname(os.path.abspath(__file__)), "..", "..", "llvm"))
import recording  # noqa: E402

# Calls after which the oracle does not know all that the runtime makes by itself, and why.
GAPS = {
    "GOMP_target": "target tasks are the runtime's",
    "GOMP_parallel_reductions": "the runtime has a group of its own for reductions",
    "__kmpc_task_reduction_modifier_init": "the runtime has a group of its own for reductions",
    "__kmpc_taskred_modifier_init": "the runtime has a group of its own for reductions",
    "GOMP_loop_start": "the runtime has a group of its own for reductions",
    "GOMP_loop_ull_start": "the runtime has a group of its own for reductions",
    "GOMP_sections2_start": "the runtime has a group of its own for reductions",
    "GOMP_scope_start": "the runtime has a group of its own for reductions",
    "GOMP_teams": "teams are regions of the runtime's", "__kmpc_fork_teams": "teams are regions of the runtime's",
}
COMPILERS = {"c": str, "c++": lambda name: name.replace("clang", "clang++").replace("gcc", "g++"),
             "fortran": lambda name: name.replace("gcc", "gfortran")}
BAD = ("crash", "wrong", "silent", "printed")
OF_LINES = "lines of gcc"   # a remark on places alone: it explains no other shape
TOLD = BAD + ("refused", "remarked", "too slow", "too large")
MOST_BYTES = 5000000  # of a text that is compared


@dataclass
class Setting:
    compiler: list     # its words
    library: str       # LLVM's runtime; empty where the program runs on gcc's
    recorder: str      # tools/spanprof-record
    oracle: str
    seconds: int = 60


@dataclass
class Verdict:
    kind: str
    why: str = ""


def run(words, folder, seconds, **more):
    """Its exit status and what it wrote to standard error and output; no status where it did not end."""
    try:
        done = subprocess.run(words, cwd=folder, capture_output=True, timeout=seconds, stdin=subprocess.DEVNULL,
                              env=dict(os.environ, OMP_NUM_THREADS="4", **more))
    except subprocess.TimeoutExpired:
        return None, "", b""
    return done.returncode, done.stderr.decode("utf-8", "replace"), done.stdout


def build(setting, program, folder):
    """The first line of the compiler's error; nothing where it is built."""
    words = list(setting.compiler)
    if program.language == "fortran" and words[0] != "gcc":
        return "no compiler of Fortran"
    words[0] = COMPILERS[program.language](words[0])
    done = subprocess.run(words + ["-g", "-fopenmp", "-I", os.path.dirname(program.path)] + list(program.options)
                          + [program.path, "-o", os.path.join(folder, "program"), "-lm"],
                          capture_output=True, text=True)
    errors = [line for line in done.stderr.splitlines() if "error" in line or "undefined" in line]
    return (errors or ["the compiler fails"])[0] if done.returncode else ""


def calls_of(setting, folder):
    """What the oracle tells of a run, or None where the program does not end as it does without."""
    file = os.path.join(folder, "calls")
    status, _, _ = run(["./program"], folder, setting.seconds, LD_PRELOAD=":".join(
        filter(None, [setting.oracle, setting.library])), RUNTIME_CALLS=file)
    if status != 0 or not os.path.exists(file):
        return None
    with open(file, encoding="utf-8") as it:
        return asked.of_calls(it.read())


def paths(folder):
    """Of the recorded texts."""
    return glob.glob(os.path.join(folder, "out*.tasks"))


def texts(folder):
    """The recorded regions with tasks, and all remarks; nothing where one is too large."""
    regions, remarks = [], []
    if any(os.path.getsize(it) > MOST_BYTES for it in paths(folder)):
        return regions, remarks
    for path in paths(folder):
        with open(path, encoding="utf-8") as file:
            region, said = asked.of_text(file.read())
        remarks += [one for one in said if one.name != OF_LINES]
        if region:
            regions.append(region)
    return sorted(regions), remarks


def gap(folder):
    listed = subprocess.run(["nm", "-D", "--undefined-only", os.path.join(folder, "program")], capture_output=True,
                            text=True).stdout
    return next((why for call, why in GAPS.items() if call in listed), "")


def recorded(setting, folder):
    """The regions, the remarks, the exit status, what was said, and what the program printed."""
    for path in glob.glob(os.path.join(folder, "out*")):
        shutil.rmtree(path) if os.path.isdir(path) else os.remove(path)
    options = ["--out", "out"] + (["--runtime", setting.library] if setting.library else [])
    status, said, printed = run([setting.recorder, *options, "--", "./program"], folder, setting.seconds)
    more, _ = recording.texts(os.path.join(folder, "out"))
    return texts(folder) + (status, said + more, printed)


def reason(said):
    lines = [line for line in said.splitlines() if "spanprof" in line]
    return lines[-1].split("spanprof-record: ")[-1] if lines else ""


def compared(setting, folder, found, remarks):
    """Of two runs of the program, one of which was recorded."""
    runs = [it for it in (calls_of(setting, folder) for _ in range(2)) if it]
    if not runs:
        return Verdict("no oracle", "the program does not end well under it")
    if any(regions == found for regions, _ in runs):
        return Verdict("same with remarks" if remarks else "same", "; ".join(remarks))
    if gap(folder):
        return Verdict("no oracle", gap(folder))
    more = [it for it in (calls_of(setting, folder) for _ in range(6)) if it]
    if any(regions == found for regions, _ in more):
        return Verdict("same in another run")
    if any(regions != runs[0][0] for regions, _ in runs + more):
        return Verdict("no oracle", "the program's tasks differ from run to run")
    return Verdict("remarked" if remarks else "wrong", "; ".join(remarks) or "%d regions recorded, %d called" % (
        len(found), len(runs[0][0])))


def try_program(setting, program, folder):
    """What comes of it. `crash`, `wrong` and `silent` are the recorder's faults."""
    fault = build(setting, program, folder)
    if fault:
        return Verdict("not built", fault)
    preloaded = {"LD_PRELOAD": setting.library} if setting.library else {}
    plain = [run(["./program"], folder, setting.seconds, **preloaded) for _ in range(2)]
    statuses = [status for status, _, _ in plain]
    if statuses != [0, 0]:
        return Verdict("fails without", "status %s" % statuses)
    found, remarks, status, said, printed = recorded(setting, folder)
    if status not in (0, 125):
        found, remarks, status, said, printed = recorded(setting, folder)
    if any(os.path.getsize(it) > MOST_BYTES for it in paths(folder)):
        return Verdict("too large", "a text of more than %d bytes is not compared" % MOST_BYTES)
    if status is None:
        return Verdict("too slow", "the recording does not end in %d seconds" % setting.seconds)
    if status not in (0, 125):
        return Verdict("crash", "status %s: %s" % (status, reason(said)))
    outputs = [out for _, _, out in plain]
    if status == 0 and outputs[0] == outputs[1] != printed:
        return Verdict("printed", "%r, and not %r" % (printed[:60], outputs[0][:60]))
    if found:
        return compared(setting, folder, found, remarks)
    if not reason(said):
        return Verdict("silent", "nothing is written and nothing said")
    calls = calls_of(setting, folder)
    has_tasks = calls and calls[0]
    return Verdict("refused" if has_tasks else "no tasks", reason(said))
