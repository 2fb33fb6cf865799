"""Reports in Markdown, with what they say of the test itself, as pairs of a name and what is so; and in JUnit's XML, a
test for each program and the way its tasks are written. A command leaves tables on standard output, and a report with
the small programs beside it.
"""
import os
import pathlib
import re
import xml.etree.ElementTree
from dataclasses import dataclass

from spanprof.conformance.judge.rules import at_stake
from spanprof.conformance.report import tables
from spanprof.conformance.run.campaign import directed_cases
from spanprof.conformance.run.launch import SETTINGS

# How the variables begin by which whoever calls tells runtimes and sanitizers something.
OF_RUNTIMES = ("OMP_", "KMP_", "GOMP_", "LIBOMP", "MALLOC_", "ASAN_", "TSAN_", "UBSAN_")
COVERAGE_WORDS = """Of each rule, by number of threads: how often a segment began after a wait by it / how often nothing
else held the segment back while somebody was free to start it / how often it then began right after the finish for
which it waited, on another thread. Without the rule, runs of the second kind could have been refused; those of the
third nearly were. An undeferred task mostly runs on the thread that waits for it; then the third number stays 0."""
SUITE = "spanprof-conformance"
NO_XML = re.compile("[^\t\n\r\x20-\ud7ff\ue000-\ufffd]")  # characters that XML does not have
# How a report is written, by the suffix of its file; in any other as Markdown.
FORMS = {".xml": lambda report, _: junit(report.results)}


def reported_runtimes(environment):
    """The variables that hold in all settings, where these do not say otherwise."""
    reported = [f"{name}={value}" for name, value in sorted(environment.items()) if name.startswith(OF_RUNTIMES)]
    return f"`{' '.join(reported)}`" if reported else ""


def tested(options, bench, settings):
    """What is tested, and how: the same whenever a campaign goes on."""
    toolchain = bench.toolchain
    facts = {"compiler": f"{toolchain.version()}, flags `{' '.join(toolchain.shown_flags)}`",
             "runtime": toolchain.runtime(bench.environment),
             "threads": ", ".join(map(str, options.threads)),
             "runs each": str(options.runs),
             "seed": str(options.seed),
             "seeds of delays in the runtime": str(options.perturb) if options.perturb else "",
             "environment": reported_runtimes(bench.environment),
             **{f"setting {name}": SETTINGS[name].reported() for name in settings},
             "tasks": ", ".join(options.tasks),
             "directed programs": options.match if options.match != "*" else "",
             "random programs": str(options.programs),
             "left out, as the compiler lacks a kind of item": lacking(options, toolchain.kinds)}
    return {name: fact for name, fact in facts.items() if fact}


def lacking(options, kinds):
    """The directed programs that need a kind of item that the compiler lacks."""
    return ", ".join(directed_cases(kinds, options.tasks, options.match)[1])


def facts_of(what, results):
    """All facts, after a test: what was judged, on which machine, and how long the runs took."""
    machine = f"{os.cpu_count()} processors, load {os.getloadavg()[0]:.1f} at the end"
    return [*what.items(), ("judged by spanprof", judged(results)), ("machine", machine),
            ("time", f"{results.seconds:.0f} s")]


def judged(results):
    """How many logs spanprof itself judged, and why not those of all runs."""
    return f"{results.judged} logs of {results.runs} runs; each other run had a log equal to one of these, or one " \
           "without an order of events"


@dataclass
class Report:
    """What a report tells: pairs of a name and what is so, the kinds of items that the compiler knows, what came of the
    runs, and the small programs that fail."""
    facts: list
    kinds: set
    results: object
    found: list
    took: object = None  # how long all of it took, where that is reported


def reproducer(number, found, name):
    """One shrunk failure, whose text is in a file of this name."""
    failure = found.failure
    conditions = failure.conditions
    lines = [f"### {number}. {failure.verdict.kind}: {failure.rule} ({failure.case.variant} tasks)", "",
             f"{failure.words} At stake: {at_stake(failure.verdict.kind, failure.rule)}.", "",
             f"Found in `{found.origin}`, made smaller in {found.tried} tries. {found.failed} of {found.runs} runs on "
             f"{conditions.threads} threads failed in the test; {found.alone.rate}. {found.remark()}".rstrip(), ""]
    if found.delays:
        lines += [found.delays, ""]
    if found.text:
        perturb = f" --preload .. --perturb {conditions.perturb}" if conditions.perturb else ""
        lines += [f"To see it again: the file below, or `spanprof-conformance shrink {name} --cc .. "
                  f"--tasks {failure.case.variant} --threads {conditions.threads} "
                  f"--settings {conditions.setting}{perturb}`.", ""]
    if failure.log:
        lines += [f"The log up to there (schedule: {failure.log.schedule}):", "", "```", *found.events(), "```", ""]
    if found.stacks:
        lines += ["The stacks of the threads where it hung:", "", "```", *found.stacks, "```", ""]
    return lines + ["```c", found.alone.source.rstrip(), "```", ""]


def coverage_lines(report):
    """How hard each rule was tried."""
    return [*tables.coverage(report.results, report.kinds), "", *tables.untried(report.results, report.kinds)]


def markdown(report, stem):
    """The whole report; `stem` begins the names of the texts' files."""
    results = report.results
    lines = ["# Conformance of an OpenMP task runtime", ""]
    lines += tables.table(("", ""), report.facts) + [""]
    lines += ["## By construct and number of threads", "", *tables.summary(results), ""]
    lines += ["## How hard each rule was tried", "", *COVERAGE_WORDS.split("\n"), "", *coverage_lines(report), ""]
    lines += ["## By setting and schedule", "", *tables.conditions(results), ""]
    if results.expected:
        lines += ["## Expected failures", "", *tables.expected(results), ""]
    if results.groups:
        lines += ["## Failures", "", *tables.kinds_of_failure(results), ""]
    if report.found:
        lines += ["## Smallest programs found", ""]
        for number, one in enumerate(report.found, 1):
            lines += reproducer(number, one, f"{stem}-{number}.tasks")
    if report.took:
        lines.append(report.took.reported())
    return "\n".join(lines)


def junit(results):
    """The text of a file of JUnit's: a program fails, or is skipped where its failures were all expected."""
    outcomes = sorted(results.outcomes.items())
    suite = xml.etree.ElementTree.Element("testsuite", {
        "name": SUITE, "tests": str(len(outcomes)), "time": f"{results.seconds:.0f}", "errors": "0",
        "failures": str(sum(outcome.failed > 0 for _, outcome in outcomes)),
        "skipped": str(sum(is_expected(outcome) for _, outcome in outcomes))})
    for (name, variant), outcome in outcomes:
        case = xml.etree.ElementTree.SubElement(suite, "testcase", {"classname": f"{SUITE}.{variant}", "name": name})
        if outcome.failed:
            failure = xml.etree.ElementTree.SubElement(case, "failure", {"message": reported(outcome)})
            failure.text = NO_XML.sub("?", outcome.words)
        elif is_expected(outcome):
            xml.etree.ElementTree.SubElement(case, "skipped", {"message": f"expected: {', '.join(outcome.known)}"})
    xml.etree.ElementTree.indent(suite)
    return xml.etree.ElementTree.tostring(suite, encoding="unicode", xml_declaration=True)


def is_expected(outcome):
    """Whether a program failed only as it was expected to."""
    return bool(outcome.known) and not outcome.failed


def reported(outcome):
    return f"{outcome.failed} of {outcome.counts['runs']} runs failed: {outcome.kinds()}"


def verdict(results):
    failed = len(results.failed_programs())
    ways = f"{failed} programs failed, in {len(results.groups)} ways" if failed else "none failed"
    return f"{len(results.outcomes)} programs, {results.runs} runs: {ways}"


def publish(names, report):
    """Prints the tables, where no report is asked for also how hard each rule was tried and the small programs; writes
    the reports that are, names with commas."""
    results = report.results
    for lines in (tables.summary(results, ["all"]), [] if names else coverage_lines(report), tables.expected(results),
                  tables.kinds_of_failure(results)):
        if lines:
            print("\n".join([*lines, ""]))
    if not names:
        for number, one in enumerate(report.found, 1):
            print("\n".join(reproducer(number, one, "FILE")))
    if report.took:
        print(verdict(results), report.took.reported(), sep="\n")
    if names:
        write_reports([pathlib.Path(name) for name in names.split(",")], report)


def write_reports(paths, report):
    """Writes the reports, and a text and one C file for each failure beside the last one."""
    for path in paths:
        path.write_text(FORMS.get(path.suffix, markdown)(report, path.stem) + "\n")
    for number, one in enumerate(report.found, 1):
        case, name = one.failure.case, f"{paths[-1].stem}-{number}"
        if one.text:
            paths[-1].with_name(f"{name}.tasks").write_text(f"# unit {case.unit}\n{one.text}")
        source = one.alone.source.replace(f" {case.name}.c && ", f" {name}.c && ")
        paths[-1].with_name(f"{name}.c").write_text(source)
