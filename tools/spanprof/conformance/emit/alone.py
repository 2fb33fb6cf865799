"""Writes a program as one C file that judges itself: status 0, or 1 and what was expected and seen."""
import re
import textwrap

from spanprof.conformance.data import DATA
from spanprof.conformance.emit.tasks import Emitter
from spanprof.conformance.judge.chunks import clause_of
from spanprof.conformance.judge.rules import RULES
from spanprof.conformance.judge.tied import is_below, is_included

TEMPLATE = DATA / "harness" / "alone.c.in"
WIDTH = 110
# What stands in a program for the harness, and what it is without one.
PLAIN = (("team_begins(); ", ""), ("STRICT ", "strict: "), ("if (KNOWS_STRICT) ", ""), ("u * (unsigned)(", " * (int)("),
         ("#ifdef HAS_HOST_TARGET", "#ifndef __clang__"), ("conformance_in_region", "omp_in_parallel()"),
         ("taskloop_turn", "turn_begins"))
NUMBER = re.compile(r"\b(\d+)u\b")
PASSED = re.compile(r"(?m)^( *)segment_start\((.*)\);\n *segment_finish\(\);$")  # a segment without code of its own
# Functions and variables, each where the program's lines name it.
HELPERS = {
    "conformance_no": "static volatile int conformance_no = 0;",
    "conformance_yes": "static volatile int conformance_yes = 1;",
    "COPIED_LENGTH": "#ifdef __clang__\n#define COPIED_LENGTH 1\n#else\nstatic volatile int some = 1;\n"
                     "#define COPIED_LENGTH some\n#endif",
    "segment_pass(": "static void segment_pass(int segment) { segment_start(segment), segment_finish(); }",
    "segment_pass_on_host(": "static void segment_pass_on_host(int segment) {\n"
                             "    if (!begun[segment]++) ended[segment] = 1;\n}",
    "expect(": "static void expect(const char *what, long seen, long right) {\n"
               '    if (seen != right) FAILS("expected: %s is %ld\\nseen: %ld\\n", what, right, seen);\n}',
    "is_turn(": "static int is_turn(long turn, long first, long last) {\n    if (turn < first || turn > last)\n"
                '        FAILS("expected: iterations %ld to %ld run\\nseen: %ld ran\\n", first, last, turn);\n'
                "    return 1;\n}",
    "turn_begins(": "static int task_of[SEGMENTS]; /* of each iteration, by the first one of its task */\n"
                    "static void turn_begins(unsigned *own, int segment) {\n"
                    "    task_of[segment] = (int)(*own ? *own : (*own = (unsigned)segment + 1));\n}"}
TEAMS = {"": ("parallel num_threads(THREADS)", "single nowait"), "orphaned": ("taskgroup",),
         "nested": ("parallel num_threads(2)", "single", "parallel num_threads(THREADS)", "single nowait")}
CHECK_WAITS = """    for (int i = 0; i < LENGTH(waits); i++)
        if (waits[i].after == segment && !ended[waits[i].before])
            FAILS("expected: segment %d begins after segment %d has ended, by %s\\nseen: it begins before that\\n", segment,
                  waits[i].before, waits[i].rule);"""
CHECK_APART = """    for (int i = 0; i < LENGTH(apart); i++)
        if (apart[i].after == segment && begun[apart[i].first] && !ended[apart[i].last]@THREAD@)
            FAILS("expected: segment %d does not begin between segments %d and %d@THERE@\\nseen: it does\\n", segment,
                  apart[i].first, apart[i].last);"""
CHECK_STAYS = """    for (int i = 0; i < LENGTH(stays); i++)
        if (stays[i].after == segment && thread_of[stays[i].before] != omp_get_thread_num())
            FAILS("expected: segment %d runs on thread %d, as its tied task\\nseen: on %d\\n", segment,
                  thread_of[stays[i].before], omp_get_thread_num());"""
ON_THREAD = "    thread_of[segment] = omp_get_thread_num();"
CHECK_CHUNKS = """        for (int i = 0; i < LENGTH(loops); i++) {
            int tasks = 0, stride = loops[i].stride, end = loops[i].turns * stride, *own = &task_of[loops[i].first];
            for (int turn = 0; turn < end; turn += stride) {
                int size = 0, before = 0; /* of its task: all iterations, and those before this one */
                for (int other = 0; other < end; other += stride) {
                    size += own[other] == own[turn];
                    before += own[other] == own[turn] && other < turn;
                }
                tasks += !before;
                if (size > loops[i].most || (size < loops[i].least && own[turn] != own[loops[i].last * stride]))
                    FAILS("expected: tasks of %d to %d iterations\\nseen: %d\\n", loops[i].least, loops[i].most, size);
            }
            if (loops[i].tasks && tasks != loops[i].tasks)
                FAILS("expected: %d tasks\\nseen: %d\\n", loops[i].tasks, tasks);
        }"""


def rows(name, fields, found):
    """The lines of a table of C."""
    text = ", ".join("{" + ", ".join(map(str, row)) + "}" for row in found)
    return [f"static const struct {{ {fields} }} {name}[] = {{",
            *textwrap.wrap(text, WIDTH, initial_indent="    ", subsequent_indent="    ", break_on_hyphens=False), "};"]


def is_optional(task):
    """Whether a task may be left out, since the group around it or around one above is cancelled."""
    return task is not None and bool(task.cancellers or is_optional(task.parent))


def waits_of(table, preds):
    """For each segment and each one that it waits for by a rule: both, and the rule."""
    for after, befores in enumerate(preds):
        for before in befores:
            need = table.need(before, after)
            if need and need.rule not in ("order", "creation") and not is_optional(table.task_of[before]):
                yield before, after, f'"{need.rule}"'


def exclusive_pairs(table):
    tasks = [task for task in table.tasks if task.exclusive]
    return [(one.segments[0], one.segments[-1], other.segments[0]) for one in tasks for other in tasks
            if one is not other and one.parent is other.parent and one.exclusive & other.exclusive]


def unconstrained_pairs(table):
    tasks = [task for task in table.tasks if task.tied and not task.implicit]
    return [(one.segments[0], one.segments[-1], other.segments[0]) for one in tasks for other in tasks
            if one is not other and one.parent and not is_below(other, one) and not is_included(other)]


def chunk_rows(table):
    """Of each taskloop with a clause: its first segment, their distance and number, which turn comes last, and how many
    tasks of how many turns it has."""
    for loop in table.taskloops:
        name, number, strict = clause_of(loop.clause)
        turns, ordered = len(loop.turns), sorted(loop.turns)
        stride = ordered[1] - ordered[0] if turns > 1 else 1
        last = ordered.index(loop.turns[-1])
        tasks, least, most = min(number, turns), 1, turns
        if name != "num_tasks":
            tasks, least, most = 0, min(number, turns), number if strict else 2 * number - 1
        elif strict:
            least, most = turns // tasks, -(-turns // tasks)
        yield ordered[0], stride, turns, last, tasks, least, most


class Alone:
    """The parts of the file. Of a failure, `kind` says what else has to be looked at than in any program."""

    def __init__(self, body, table, preds, kind=""):
        self.table, self.kind, self.emitter = table, kind, Emitter(body)
        self.waits = list(waits_of(table, preds))
        self.lines = "\n".join(line for line in self.emitter.lines if "END_OF_OBJECT" not in line)
        for name, plain in PLAIN:
            self.lines = self.lines.replace(name, plain)
        self.lines = PASSED.sub(r"\1segment_pass(\2);", NUMBER.sub(r"\1", self.lines))
        self.tables, self.checks = [], []
        self.look_at_order()

    def look_at_order(self):
        if self.waits:
            self.add("waits", "int before, after; const char *rule;", self.waits, CHECK_WAITS)
        constrained = self.kind == "unconstrained"
        apart = unconstrained_pairs(self.table) if constrained else exclusive_pairs(self.table)
        if apart:
            thread = " &&\n            thread_of[apart[i].first] == omp_get_thread_num()" if constrained else ""
            check = CHECK_APART.replace("@THREAD@", thread).replace("@THERE@", " on its thread" * constrained)
            self.add("apart", "int first, last, after;", apart, check)
        if self.kind == "moved":
            stays = [(task.segments[0], after) for task in self.table.tasks if task.tied for after in task.segments[1:]]
            self.add("stays", "int before, after;", stays, CHECK_STAYS)
        if constrained or self.kind == "moved":
            self.tables.append("static int thread_of[SEGMENTS];")
            self.checks.append(ON_THREAD)

    def add(self, name, fields, found, check):
        self.tables += rows(name, fields, found)
        self.checks.append(check)

    def chunks(self):
        """The table of the taskloops whose tasks are counted after a round, and the code for that."""
        found = list(chunk_rows(self.table)) if "turn_begins(" in self.lines else []
        if not found:
            return [], ""
        return rows("loops", "int first, stride, turns, last, tasks, least, most;", found), CHECK_CHUNKS

    def missing(self):
        """Whether a segment has not run that has to: where tasks may be left out, one that has begun."""
        return "ended[s] != begun[s]" if any(map(is_optional, self.table.tasks)) else "!ended[s]"

    def text(self, head, threads, team=""):
        loops, after = self.chunks()
        calls = ["program_root(THREADS);"]
        if not self.emitter.regions:
            calls = [f"#pragma omp {words}" for words in TEAMS.get(team, TEAMS[""])] + calls
        parts = {"HEAD": head.replace("*/", "* /"), "SEGMENTS": len(self.table.cost), "THREADS": threads,
                 "LOCATIONS": self.emitter.locations.declarations(), "TABLES": "\n".join(self.tables + loops),
                 "CHECKS": "\n".join(self.checks), "MISSING": self.missing(), "AFTER": after,
                 "HELPERS": "\n".join(words for name, words in HELPERS.items() if name in self.lines),
                 "BODY": self.lines, "TEAM": "\n".join(" " * 8 * (call[0] != "#") + call for call in calls)}
        filled = TEMPLATE.read_text()
        for name, part in parts.items():
            filled = filled.replace(f"@{name}@\n", f"{part}\n" if str(part) else "").replace(f"@{name}@", str(part))
        return filled

    def rules(self):
        """What is expected of it, by the rules by which its segments wait."""
        named = {rule.strip('"') for _, _, rule in self.waits} or {"region"}
        return [f"{RULES[name]}." for name in RULES if name in named]
