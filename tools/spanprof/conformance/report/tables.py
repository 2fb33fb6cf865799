"""Tables in Markdown."""
from spanprof.conformance.judge.coverage import MEASURES, OTHERS, TRIED_RULES, all_waits, never
from spanprof.conformance.report.results import EXPECTED, SEEN_ONCE
from spanprof.conformance.run.self_checking import VARIANT as SELF_CHECKING

COUNTS = ("programs", "runs", "events", "refused", "incomplete", "values", "moved", "unconstrained",
          "overlapping", "chunks", "wrong", "hung", SEEN_ONCE, "crashed", "not built", EXPECTED)


def table(heads, rows):
    """The lines of a table."""
    return [line_of(heads), "|" + "---|" * len(heads), *map(line_of, rows)]


def line_of(row):
    return "| " + " | ".join(str(cell).replace("|", "\\|") for cell in row) + " |"   # as in an assertion


def first_few(names, most=4):
    """Some names, and how many more there are."""
    more = f" and {len(names) - most} more" if len(names) > most else ""
    return ", ".join(names[:most]) + more


def summary(results, constructs=None):
    """Counts by construct and number of threads: of some constructs, or of all."""
    rows = []
    for key in sorted(results.rows, key=lambda key: (key[0] != "all", key)):
        if constructs and key[0] not in constructs:
            continue
        rows.append((*key, *(results.rows[key][count] for count in COUNTS)))
    return table(("construct", "threads", *COUNTS), rows)


def conditions(results):
    """Runs and failures by setting and schedule."""
    rows = [(setting, schedule, counts["runs"], counts["failures"])
            for (setting, schedule), counts in sorted(results.conditions.items())]
    return table(("setting", "schedule", "runs", "failures"), rows)


def coverage(results, kinds):
    """What was tried of each rule, by construct and number of threads; `kinds` of items are those of the compiler."""
    threads = sorted({key[3] for key in results.coverage})
    keys = {key[:2] for key in results.coverage} | {*all_waits(kinds), *OTHERS}
    order = [*TRIED_RULES, *dict(OTHERS), SELF_CHECKING]
    rows = []
    for rule, construct in sorted(keys, key=lambda key: (order.index(key[0]), key[1])):
        cells = [" / ".join(str(results.coverage[rule, construct, measure, number]) for measure in MEASURES)
                 for number in threads]
        rows.append((rule, construct, *cells))
    return table(("rule", "construct", *(f"{number} threads" for number in threads)), rows)


def untried(results, kinds):
    """One line for each of the two measures that tell of a rule being tried: what nothing was counted for."""
    words = {"held": "Never held back by this rule alone", "close": "Never close"}
    for measure, begin in words.items():
        missing = never(measure, results.coverage, kinds)
        yield f"{begin}: {'; '.join(missing) or 'none of these'}."


def kinds_of_failure(results):
    """Failures that are taken for the same, the most frequent first."""
    rows = []
    for (variant, kind, rule), group in results.most_frequent():
        threads = ", ".join(map(str, sorted(group.threads)))
        rows.append((kind, rule, variant, group.runs, threads, first_few(sorted(group.programs))))
    return table(("kind", "rule", "tasks", "runs", "threads", "programs"), rows) if rows else []


def expected(results):
    """What is known of the failures that were expected, and how many they were."""
    rows = sorted(results.expected.items())
    return table(("expected failures", "runs"), rows) if rows else []


MUTANT_HEADS = ("mutant", "what it breaks", "caught by", "seen as", "programs that caught it", "seconds")


def mutant_line(name, meaning, results):
    """The row of one mutant."""
    programs, seen = results.failed_programs(), "; ".join(sorted({rule for _, _, rule in results.groups}))
    return line_of((f"`{name}`", meaning, len(programs), seen, first_few(programs), f"{results.seconds:.0f}"))


BUILT_HEADS = ("mutant", "rule", "breaks it", "tried", "seen as", "program", "tasks", "threads", "setting", "seconds")


def built_line(mutant, campaign):
    """The row of one runtime that was built from a changed source."""
    return line_of((f"`{mutant.name}`", mutant.rule, mutant.breaks.split(":")[0], campaign.tried, campaign.how,
                    campaign.program, campaign.tasks, campaign.threads or "", campaign.setting,
                    f"{campaign.seconds:.0f}"))


def matrix(caught):
    """Which program caught which mutant; `caught` has lists of programs by mutant."""
    programs = sorted({name for names in caught.values() for name in names})
    rows = [(name, *("x" if name in names else "" for names in caught.values())) for name in programs]
    return "\n".join(table(("program", *caught), rows)) + "\n"
