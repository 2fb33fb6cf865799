"""What the options ask for: the judge, a bench, how to run on it, and the program in a file."""
import os
import pathlib
import re

from spanprof.command import check_files
from spanprof.conformance.generate.text_reader import read_program
from spanprof.conformance.judge.cases import Bench, Plan
from spanprof.conformance.judge.exclusion import found_search
from spanprof.conformance.judge.verdicts import Expectations, Judge, Missing, Refused, find_spanprof, read_expected
from spanprof.conformance.run import perturb, self_checking
from spanprof.conformance.run.campaign import DIRECTED_UNIT
from spanprof.conformance.run.launch import settings_of
from spanprof.conformance.run.mutants import family_of
from spanprof.conformance.run.toolchain import Toolchain
from spanprof.refusal import explained


def found_judge():
    return Judge(find_spanprof(os.environ), found_search())


def preloaded(libraries):
    """An environment in which these libraries are loaded first. The system passes over one that is not there."""
    for library in libraries.replace(":", " ").split():
        if "/" in library and not os.path.exists(library):
            raise Missing(f"--preload {library}: no such file")
    return {**os.environ, "LD_PRELOAD": libraries} if libraries else dict(os.environ)


def open_bench(options, folder):
    toolchain = Toolchain(options.cc, folder, options.keep)
    environment = preloaded(options.preload)
    if options.perturb:
        environment = perturb.before_others(perturb.build(options.keep or folder), environment)
    usual = family_of(toolchain.runtime(dict(os.environ)))
    expectations = Expectations(toolchain.runtime(environment), read_expected(options.expected), usual)
    if options.perturb and not getattr(options, "built", ""):
        perturb.check(toolchain.runtime(environment))
    bench = Bench(toolchain, found_judge(), environment, expectations)
    bench.others[self_checking.VARIANT] = self_checking.try_case
    return bench


def entry_points(bench):
    """Which entry points the compiler's programs call: those of its own runtime, whatever is loaded in its place."""
    return family_of(bench.toolchain.runtime(dict(os.environ)))


def plan_of(options, bench):
    settings = options.settings or settings_of(entry_points(bench))
    delayed = {"perturb": options.perturb or ""} if options.command == "shrink" else {"seeds": options.perturb}
    return Plan(options.threads, options.runs, options.seed, options.timeout, tuple(settings), **delayed)


def unit_in(path):
    """What a cost of 1 lasts in the program of a file, in nanoseconds, as the head of a shrunk one says."""
    found = re.match(r"# unit (\d+)\n", pathlib.Path(path).read_text(errors="replace"))
    return int(found[1]) if found else DIRECTED_UNIT


def program_in(path, judge):
    """The program in a file, which spanprof has to accept."""
    check_files(path)
    text = pathlib.Path(path).read_text(errors="replace")
    try:
        judge.record(text)
    except Refused as refused:
        more = explained(path, ["run"], text, str(refused), lambda words, shorter: judge.ask(words, shorter)[1])
        raise Refused("\n".join(filter(None, [more, f"spanprof: {refused}"]))) from refused
    return read_program(text)
