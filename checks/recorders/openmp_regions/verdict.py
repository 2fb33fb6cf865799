"""Runs a drawn program and tells what is wrong with its recording."""
import functools
import os
from collections import Counter

import toolchain
from compare import difference
from expect import regions, shape, works
from recorded import read
from structure import every_node, has_tasks, total
from write_c import write_c


NOT_ENDED = "unfinished task"  # the recorder's remark on it


def hide_lines(shape_of_region):
    for phase in shape_of_region.phases:
        for piece in phase:
            for node in every_node(piece.body):
                node.is_hidden = True


def shapes_of(drawn, threads):
    """The shape of each text that must be written, by the line of its region, with how often."""
    out = {}
    for region, times, outer in regions(drawn.statements, threads):
        one = shape(region, threads, drawn.is_on_gcc())
        if drawn.is_of_gcc():
            hide_lines(one)
        if times and any(has_tasks(piece.body) for phase in one.phases for piece in phase):
            out[region.line] = (one, times, outer)
    return out


def texts_difference(shapes, texts):
    """What is wrong with the texts of a run; nothing where all is right."""
    found = {name: read(text) for name, text in texts.items()}
    counts = Counter(text.line for text in found.values())
    for line, (_, times, _) in shapes.items():
        if counts[line] != times:
            return "%d texts of the region of line %d, which is executed %d times" % (counts[line], line, times)
    for name, text in sorted(found.items()):
        if text.line not in shapes:
            return "%s is of no region with tasks" % name
        reported = difference(shapes[text.line][0], text)
        if reported:
            return "%s: %s" % (name, reported)
    return ""


def costs_difference(drawn, shapes, texts, nanoseconds):
    """Regions that stand in no other one cost no more processor time than the whole program."""
    if drawn.clock != "cpu":
        return ""
    found = [read(text) for text in texts.values()]
    work = sum(total(body) for text in found if shapes[text.line][2] for bodies in text.phases for body in bodies)
    return "work %d, and the program took %d" % (work, nanoseconds) if work > nanoseconds else ""


def program_fault(run, expected_works):
    """What is wrong with what the program did, whatever was recorded of it."""
    if run.status != 0:
        return "the program fails: %s: %s" % (run.status, run.said.strip().split("\n")[-1])
    if run.works != expected_works:
        return "%d of the program's %d works are done at its end" % (run.works, expected_works)
    return ""


def judge_fault(fault, run, run_again, expected_works, tries=100):
    """A fault of LLVM's is one that comes without the recorder too. A text says which tasks did not end."""
    if not any(program_fault(run_again(), expected_works) for _ in range(tries)):
        return "wrong", fault
    if run.status == 0 and not any(read(text).says(NOT_ENDED) for text in run.texts.values()):
        return "wrong", fault + ", and no text says so"
    return "runtime", fault + ", without the recorder too"


def judge_run(tools, drawn, threads, program, folder):
    """One run: ("right", ""), or what kind of fault and which."""
    run = toolchain.run(tools, drawn, threads, program, folder)
    expected_works = works(drawn.statements, threads)
    fault = program_fault(run, expected_works)
    if fault:
        run_again = functools.partial(toolchain.run, tools, drawn, threads, program, folder, False)
        return judge_fault(fault, run, run_again, expected_works)
    shapes = shapes_of(drawn, threads)
    reported = texts_difference(shapes, run.texts) or costs_difference(drawn, shapes, run.texts, run.nanoseconds)
    if reported:
        return "wrong", reported
    for name in sorted(run.texts):
        reported = toolchain.account(folder, name)
        if reported:
            return "refused", "%s.timed: %s" % (name, reported)
    reported = toolchain.account_of_whole(folder)
    return ("refused", "the whole program's times: " + reported) if reported else ("right", "")


def judge(tools, drawn, folder, runs=1):
    """Compiles and runs a program on its numbers of threads: the first fault, and on how many threads."""
    source, program = os.path.join(folder, "region.c"), os.path.join(folder, "region")
    with open(source, "w", encoding="utf-8") as file:
        file.write(write_c(drawn.statements))
    toolchain.build(tools, drawn.compiler, source, program)
    for threads in drawn.threads * runs:
        verdict, reported = judge_run(tools, drawn, threads, program, folder)
        if verdict != "right":
            return verdict, "%s%s on %d threads: %s" % (
                drawn.compiler, " on its own runtime" if drawn.is_on_gcc() else "", threads, reported)
    return "right", ""
