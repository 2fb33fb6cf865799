"""The commands of the tester. Each takes the options and a folder for what it builds, and answers an exit status."""
import contextlib
import itertools
import json
import pathlib
import time
from dataclasses import asdict

from spanprof.command import Console
from spanprof.conformance.emit.alone import Alone
from spanprof.conformance.generate.directed import directed_programs, first_comment
from spanprof.conformance.generate.program import in_variant
from spanprof.conformance.generate.random_programs import seeds_in_turn
from spanprof.conformance.generate.text_writer import text_of
from spanprof.conformance.judge.discarding import completed, record_of
from spanprof.conformance.judge.explain import explain
from spanprof.conformance.judge.segments import Table
from spanprof.conformance.judge.verdicts import Missing
from spanprof.conformance.opening import entry_points, found_judge, open_bench, plan_of, program_in, unit_in
from spanprof.conformance.report import tables
from spanprof.conformance.report.results import Results, as_json, from_json
from spanprof.conformance.report.texts import Report, facts_of, publish, tested
from spanprof.conformance.run import self_checking
from spanprof.conformance.run.campaign import (Journal, cases_of, directed_cases, random_cases, rough, run_cases,
                                               taken, telling_first, tried)
from spanprof.conformance.run.launch import read_logs
from spanprof.conformance.run.mutant_campaigns import Campaigns, SparingBench, built_in
from spanprof.conformance.run.mutants import build_mutants, mutants_of, mutated
from spanprof.conformance.run.reproduce import Limits, reproduce_all

CONSOLE = Console("spanprof-conformance")
THREADS_ALONE = 4   # of a program by itself
STOPPED = 130       # the status where somebody stopped a test
FIRST_CASES = 300   # of random programs, among which those that tell most come first
OF_RUNS = 0.8       # of the seconds of a test; the rest is for smaller programs and the report
MOST_SHRUNK, SHRINK_RUNS, SHRINK_TRIES, SHRINK_SECONDS = 8, 20, 300, 60  # of smaller programs


def command_run(options, folder):
    """Runs directed, self-checking and random programs, and shrinks those that fail."""
    CONSOLE.say(f"{options.cc}: first what all programs share is built")
    bench = open_bench(options, folder)
    plan = plan_of(options, bench)
    what = tested(options, bench, plan.settings)
    with contextlib.closing(Journal(what, pathlib.Path(options.report.split(",")[-1]).parent)) as journal:
        results, is_whole = run_all(options, bench, plan, journal)
        found = shrink_failures(options, bench, results) if is_whole else []
        publish(options.report, Report(facts_of(what, results), bench.toolchain.kinds, results, found, taken()))
        journal.close(is_whole)
    if not is_whole:
        CONSOLE.say(f"stopped; the same command goes on, by {journal.path}")
        return STOPPED
    return 1 if results.groups else 0


def cases_of_run(options, kinds):
    """The directed part and random programs, those that tell most first, how many there are, without a list of all."""
    seeds = seeds_in_turn(options.seed, options.programs)
    randoms = random_cases(seeds, kinds, options.tasks)
    first = [*directed_cases(kinds, options.tasks, options.match)[0], *self_checking.cases(options.match),
             *itertools.islice(randoms, FIRST_CASES)]
    more = max(0, options.programs * len(options.tasks) - FIRST_CASES)
    return itertools.chain(telling_first(first), randoms), len(first) + more


def run_all(options, bench, plan, journal):
    """The results of a test, with those that an earlier process has kept, and whether nobody stopped it."""
    results = Results()
    for line in journal.lines:
        results.merge(from_json(line))
    begun, before = time.monotonic(), set(results.outcomes)
    cases, count = cases_of_run(options, bench.toolchain.kinds)
    CONSOLE.say(f"{count - len(before)} cases, {options.jobs} at once, for {rough(options.seconds)} at most")
    left = (case for case in cases if (case.name, case.variant) not in before)
    is_whole = True
    try:
        seconds = OF_RUNS * options.seconds - taken().wall
        for case, tallies in tried(bench, left, plan, options.jobs, seconds, count - len(before)):
            own = Results()
            own.add(case, tallies)
            journal.add(as_json(own))
            results.add(case, tallies)
    except KeyboardInterrupt:
        is_whole = False
    results.seconds = time.monotonic() - begun
    return results, is_whole


def shrink_failures(options, bench, results):
    """One small program for each kind of failure, the most frequent kinds first, as long as there is time."""
    failures = [group.smallest for _, group in results.most_frequent()][:MOST_SHRUNK]
    left = max(0, options.seconds - taken().wall) * options.jobs / max(1, len(failures))
    return reproduce_all(bench, failures, Limits(SHRINK_RUNS, SHRINK_TRIES, min(SHRINK_SECONDS, left)), options.jobs)


def command_mutants(options, folder):
    """Breaks one rule of the runtime after another, and lists which mutants the directed programs catch."""
    bench = open_bench(options, folder)
    if options.built:
        return try_built(options, bench)
    family = entry_points(bench)
    library, plain = build_mutants(family, folder), bench.environment
    cases, _ = directed_cases(bench.toolchain.kinds, ["tied"], options.match)
    options.settings = options.settings or ["free"]
    print("\n".join(tables.table(tables.MUTANT_HEADS, [])))
    caught = {}
    for name, meaning in {"none": "nothing", **mutants_of(family)}.items():
        bench.environment = mutated(plain, library, name)
        results = run_cases(bench, cases, plan_of(options, bench), options.jobs)
        caught[name] = results.failed_programs()
        print(tables.mutant_line(name, meaning, results), flush=True)
    if options.report:
        pathlib.Path(options.report).write_text(tables.matrix(caught))
    return 0 if all(bool(programs) == (name != "none") for name, programs in caught.items()) else 1


def try_built(options, bench):
    """The same with runtimes that were built from changed sources, in campaigns of what `run` tries."""
    mutants, plan, seen = built_in(options.built), plan_of(options, bench), {}
    wrong = False
    print("\n".join(tables.table(tables.BUILT_HEADS, [])))
    with contextlib.ExitStack() as stack:
        limits = {"timeout": options.timeout, "seconds": options.seconds}
        tested_there = {**tested(options, bench, plan.settings), **limits}
        journal = stack.enter_context(contextlib.closing(Journal(tested_there, options.built)))
        cases = list(cases_of_run(options, bench.toolchain.kinds)[0])
        campaigns = Campaigns(SparingBench(bench), cases, options, plan,
                              [(line["mutant"], line["campaign"]) for line in journal.lines],
                              lambda name, fields: journal.add({"mutant": name, "campaign": fields}))
        for mutant, campaign in campaigns.run(mutants):
            print(tables.built_line(mutant, campaign), flush=True)
            seen[mutant.name] = asdict(campaign)
            if options.report:
                pathlib.Path(options.report).write_text(json.dumps(seen, indent=1) + "\n")
            wrong |= mutant.is_wrong != bool(campaign.program)
    return 1 if wrong else 0


def command_shrink(options, folder):
    """Shrinks the failure of one program."""
    bench = open_bench(options, folder)
    body = program_in(options.file, bench.judge)
    cases = cases_of(pathlib.Path(options.file).stem, body, [options.tasks], unit_in(options.file))
    results = run_cases(bench, cases, plan_of(options, bench), 1)
    found = shrink_failures(options, bench, results)
    publish(options.report, Report([], bench.toolchain.kinds, results, found))
    return 1 if results.groups else 0


def command_emit(options, _folder):
    """Prints a program as one C file that needs no other, and whose status says whether all was as expected."""
    if options.file in (program.name for program in self_checking.programs()):
        print(self_checking.source(options.file), end="")
        return 0
    judge = found_judge()
    body = in_variant(program_in(options.file, judge), options.tasks)
    alone = Alone(body, Table(body), judge.record(text_of(body)).preds)
    print(alone.text("\n".join([*alone.rules(), "", text_of(body)]), THREADS_ALONE), end="")
    return 0


def command_judge(options, _folder):
    """Judges logs that some runtime wrote of a program."""
    judge = found_judge()
    body = program_in(options.file, judge)
    text, table = text_of(body), Table(body)
    logs = read_logs(pathlib.Path(options.log).read_text(errors="replace"))
    if not logs:
        raise Missing(f"no line `run NUMBER` in {options.log}")
    record, wrong = judge.record(text), 0
    for log in logs:
        log = completed(table, log)
        verdict = judge.verdict(text, record_of(record, table, log), log)
        if not verdict.accepted:
            wrong += 1
            print(f"run {log.number}: {verdict.kind}: {explain(text, verdict, log).words}")
    print(f"runs: {len(logs)}, not accepted: {wrong}")
    return 1 if wrong else 0


def command_list(_options, _folder):
    """Names the directed programs."""
    for name, _ in directed_programs():
        print(f"{name:34} {first_comment(name)}")
    for program in self_checking.programs():
        print(f"{program.name:34} {program.shows} (self-checking)")
    return 0


COMMANDS = {"run": command_run, "mutants": command_mutants, "shrink": command_shrink, "emit": command_emit,
            "judge": command_judge, "list": command_list}
