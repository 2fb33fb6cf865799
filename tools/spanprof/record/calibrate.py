"""`spanprof-record --calibrate`: measures what LLVM's runtime takes for tasks on this machine, for a file."""
import glob
import os
import re
import statistics
import subprocess
import tempfile
import time
from collections import defaultdict

from spanprof.command import Fault
from spanprof.converting import RECORDERS, Product, convert, converter, find_or_build, recorder_library
from spanprof.predict.machine import COSTS, Machine, Measured, machine_file, write_machine
from spanprof.predict.program import read_program
from spanprof.program_text import OF_A_THREAD, TextFile
from spanprof.record.run import environment, say, tell, without_recorder
from spanprof.record.runtime import llvm_runtime
from spanprof.recording import ENDING, LOG

CALIBRATION = Product("calibrate", "the program for --calibrate", "clang-19 libomp-19-dev make")
SECONDS = 30        # for all numbers of threads together, begun by then
PROCESSES = 8
OFTEN = 10          # segments at a place, from which on they are of the tree's tasks


def numbers_up_to(processors):
    """1, 2, 4 and so on, and all."""
    powers = [2 ** i for i in range(processors.bit_length()) if 2 ** i <= processors]
    return sorted({*powers, processors})


def run(words, variables):
    try:
        done = subprocess.run(words, env=variables, capture_output=True, text=True, check=False, timeout=10 * SECONDS)
    except (OSError, subprocess.TimeoutExpired) as wrong:
        raise Fault("%s: %s" % (words[0], wrong)) from wrong
    if done.returncode:
        raise Fault("%s ended with status %d: %s" % (" ".join(words), done.returncode, done.stderr.strip()))
    return done.stdout


def samples_of(lines):
    """`task 326` and the like, by their names."""
    found = defaultdict(list)
    for name, number in re.findall(r"(?m)^(\w+) (\d+)$", lines):
        found[name].append(int(number))
    return found


def unrecorded(program, preload, threads, seconds):
    """Samples by name, of several processes."""
    found, until = defaultdict(list), time.monotonic() + seconds
    for number in range(PROCESSES):
        if number and time.monotonic() > until:
            break
        reported = run([program, str(threads)], without_recorder(os.environ, preload, threads))
        for name, taken in samples_of(reported).items():
            found[name] += taken
    return found


def cost_of_a_task(program):
    """What a recorded text has of an empty task: its creation, with the code around it."""
    by_place = defaultdict(list)
    for place, cost in zip(program.places, program.costs):
        by_place[place].append(cost)
    tasks = sum(1 for task in program.tasks[1:] if task.place != OF_A_THREAD)
    costs = [statistics.median(found) * len(found) for place, found in by_place.items()
             if len(found) >= OFTEN and OF_A_THREAD not in place]
    return int(sum(costs) / max(tasks, 1))


def recorded(options, program, preload, threads, folder):
    """The cost of an empty task in the text of each recorded region."""
    out = os.path.join(folder, "threads%d" % threads)
    library, to_texts = recorder_library(say), converter(say)
    options.threads, options.clock, options.unit = threads, "wall", "ns"
    variables = environment(dict(os.environ), options, library, preload, out)
    run([program, str(threads), "trees"], variables)
    convert(to_texts, os.path.join(out + ENDING, LOG), out, variables)
    texts = [str(TextFile(path)) for path in glob.glob(glob.escape(out) + "*.tasks")]
    found = [cost_of_a_task(read_program(text)) for text in texts]
    return [cost for cost in found if cost]


def costs_on(found, creation):
    """Of samples of a task without the recorder, and of what texts have of one."""
    samples = dict(found, creation=creation)
    least = min(creation, default=0)
    samples["dispatch"] = [max(taken - least, 0) for taken in found["task"]]
    return {name: Measured.of(samples[name]) for name in COSTS if samples.get(name)}


def processor():
    try:
        with open("/proc/cpuinfo", encoding="utf-8") as file:
            return (re.findall(r"model name\s*: (.*)", file.read()) or [""])[0]
    except OSError:
        return ""


def table_lines(machine):
    for threads, costs in machine.threads.items():
        reported = ", ".join("%s %d (%d median, %d most)" % (name, one.least, one.median, one.most)
                             for name, one in costs.items())
        yield "on %d thread%s, in ns: %s" % (threads, "" if threads == 1 else "s", reported)


def calibrate(options):
    """Writes the model, and answers its lines."""
    program = find_or_build(CALIBRATION, RECORDERS, say)
    preload = options.runtime or llvm_runtime()
    numbers, found = numbers_up_to(len(os.sched_getaffinity(0))), {}
    with tempfile.TemporaryDirectory(prefix="spanprof-calibrate-") as folder:
        for threads in numbers:
            tell("measuring on %d of %d" % (threads, numbers[-1]))
            taken = unrecorded(program, preload, threads, SECONDS / len(numbers))
            found[threads] = costs_on(taken, recorded(options, program, preload, threads, folder))
    machine = Machine(found, {"date": time.strftime("%Y-%m-%dT%H:%M:%SZ", time.gmtime()), "processor": processor(),
                              "runtime": os.path.realpath(preload)})
    write_machine(machine, machine_file())
    return [*table_lines(machine), "least, median, and what nine of ten were within (measured), in " + machine_file()]
