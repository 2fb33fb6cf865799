#!/usr/bin/env python3
"""The comparing and timing of commands.sh.

    commands.py PROGRAM REFERENCE FOLDER [TEXT.. | scaling | changes | where]
"""
import subprocess
import sys
from pathlib import Path

from timing import TIMEOUT, TooSlow, best, best_in_turns, peak, run

PROGRAM, PLAIN, FOLDER = sys.argv[1], sys.argv[2], Path(sys.argv[3])
PROCESSORS = "0-3"
CHAINS = ("chain", "waits")


def commands(name, segments):
    last = segments - 1
    yield ["span"]
    yield ["slack"]
    yield ["greedy", "--threads", "64"]
    yield ["curve", "--upto", "64"]
    if name in CHAINS:
        yield ["curve", "--upto", "1024"]
    yield ["whatif", "0=1000", "%d=7" % last, "%d=3" % (last // 2)]
    yield ["whatif", *("%d=%d" % (segment, segment % 7) for segment in range(segments))]
    yield ["run", "--workers", "1"]
    yield ["certify"]
    yield ["check"]


def segments_of(path):
    reported, _, _ = run([PLAIN, "span"], path)
    return int(reported[1].split()[1])


def certificate_of(path):
    certificate = path.with_suffix(".certificate")
    if not certificate.exists():
        certificate.write_bytes(run([PLAIN, "certify"], path)[0][1])
    return certificate


def called(words):
    """What a row calls the command: `whatif all` has a change for each segment."""
    if words[0] != "whatif":
        return " ".join(words)
    return "whatif" if len(words) == 4 else "whatif all"


def tell(name, words, path):
    asked = called(words)
    lead = "%-14s %-20s" % (name, asked)
    (reported, mine), (other, plain) = best_in_turns([[program, *words] for program in (PROGRAM, PLAIN)], path, 0)
    if reported is None:
        print(lead + " over %d s" % TIMEOUT, flush=True)
        return
    if other is None:
        print(lead + " %9.1f  plain: over %d s" % (mine, TIMEOUT), flush=True)
        return
    memory = [peak([program, *words], path) for program in (PROGRAM, PLAIN)]
    verdict = "" if reported == other else "  DIFFERENT"
    print(lead + " %9.1f %9.1f %6.2f %8.1f %8.1f %6.2f%s" % (
        mine, plain, mine / plain, *memory, memory[0] / memory[1], verdict), flush=True)


def table(names):
    head = ("text", "command", "ms", "plain ms", "times", "MiB", "plain", "times")
    print("%-14s %-20s %9s %9s %6s %8s %8s %6s" % head)
    for path in sorted(FOLDER.glob("texts/*.tasks")):
        name = path.stem
        if names and name not in names:
            continue
        for words in commands(name, segments_of(path)):
            tell(name, words, path if words[0] != "check" else certificate_of(path))


def scaling():
    """Wall times on one processor and on four."""
    print("%-14s %-20s %9s %9s %6s" % ("text", "command", "1", "4", "times"))
    asked = [(name, ["curve", "--upto", "1024"]) for name in ("waits", "chain", "fan")]
    items = ("shared_items", "own_items", "readers", "mixed_items", "fan_of_items")
    limits = ("all_limits", "all_limits_cut", "largest")
    asked += [(name, ["check"]) for name in ("waits", "tokens", *limits, *items)]
    for name, words in asked:
        path = FOLDER / "texts" / (name + ".tasks")
        path = certificate_of(path) if words[0] == "check" else path
        walls = []
        for processors in ("0", PROCESSORS):
            try:
                walls.append(best(["taskset", "-c", processors, PROGRAM, *words], path, 1)[1])
            except TooSlow:
                walls.append(float("inf"))
        print("%-14s %-20s %9.1f %9.1f %6.2f" % (name, " ".join(words), *walls, walls[0] / walls[1]), flush=True)


def changes():
    """The time of one more change, from a command with 2,000 of them more, in microseconds."""
    print("%-14s %-16s %12s" % ("text", "segment", "us a change"))
    for name in ("fan", "waits", "chain"):
        path = FOLDER / "texts" / (name + ".tasks")
        segments = segments_of(path)
        for what, segment in (("the first", 0), ("in the middle", segments // 2), ("the last", segments - 1)):
            few, many = (["%d=%d" % (segment, n % 2) for n in range(count)] for count in (1, 2001))
            least = [best([PROGRAM, "whatif", *words], path, 0)[1] for words in (few, many)]
            print("%-14s %-16s %12.2f" % (name, what, (least[1] - least[0]) / 2), flush=True)


STAGES = {
    "reading": ("program_text", "loop_text", "task_program"),
    "cutting": ("task_segments",),
    "kept edges": ("depend_table", "open_segments", "dispatch_core"),
    "analysis": ("span_analysis", "spanprof_command::graphs"),
    "greedy": ("greedy_sim",),
    "printing": ("csv_table", "csv::", "spanprof_command", "core::fmt", "span_cert::writer"),
}


def stage_of(symbol):
    """The stage by the crate of a function, after inlining; what the library and the kernel do is apart."""
    for stage, crates in STAGES.items():
        if symbol.startswith(crates):
            return stage
    return "other"


def shares(words, path):
    """By stage, how much of the processor's time goes there, in hundredths, by perf."""
    data = str(FOLDER / "perf.data")
    with open(path, "rb") as text:
        subprocess.run(["perf", "record", "-q", "-F", "20000", "-o", data, PROGRAM, *words], stdin=text,
                       stdout=subprocess.DEVNULL, stderr=subprocess.DEVNULL, check=True)
    reported = subprocess.run(["perf", "report", "-i", data, "--stdio", "--no-children", "-F", "overhead,dso,sym"],
                              capture_output=True, text=True, check=True)
    found = dict.fromkeys([*STAGES, "memory", "kernel", "other"], 0.0)
    for line in reported.stdout.splitlines():
        fields = line.split(None, 3)
        if len(fields) < 4 or not fields[0].endswith("%"):
            continue
        stage = "kernel" if fields[2] == "[k]" else "memory" if "libc" in fields[1] else stage_of(fields[3])
        found[stage] += float(fields[0][:-1])
    return found


def where():
    """Where the time goes. A function that is inlined counts for the crate into which it is."""
    columns = [*STAGES, "memory", "kernel", "other"]
    print("%-14s %-20s" % ("text", "command") + "".join(" %10s" % column for column in columns))
    for name in ("waits", "chain", "fan", "shared_items", "own_items", "largest", "tokens"):
        for words in (["span"], ["slack"], ["greedy", "--threads", "64"], ["certify"]):
            found = shares(words, FOLDER / "texts" / (name + ".tasks"))
            cells = "".join(" %10.0f" % found[column] for column in columns)
            print("%-14s %-20s" % (name, " ".join(words)) + cells, flush=True)


def main():
    modes = {"scaling": scaling, "changes": changes, "where": where}
    if len(sys.argv) == 5 and sys.argv[4] in modes:
        modes[sys.argv[4]]()
        return
    table(sys.argv[4:])


main()
