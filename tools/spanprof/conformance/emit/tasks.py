"""Writes a program as C with OpenMP tasks: the variables that stand for its locations, and `depend` clauses, which are
plain ones, with iterators, or by depend objects. To test another language, write its like of this file and of harness/.
"""

from spanprof.conformance.data import DATA
from spanprof.conformance.emit.forms import (addends, adds, chunks_of, form_of, has_sum, head_of, head_of_taskloop,
                                             is_cancelled, is_detached, is_of_regions, is_target, is_wait_for_items,
                                             kind_in_c, written_chunks)
from spanprof.conformance.generate.program import Group, Loop, Task, Wait, Work, segment_count
from spanprof.conformance.generate.text_writer import item_runs, text_of

TEMPLATE = DATA / "harness" / "program.c.in"
WAITED_FOR, CREATES = 1, 2  # what the harness delays: see delays.c
OF_TASKS = ("untied", "mergeable", "priority")  # clauses that are written in C as in the text's comments


class Locations:
    """One variable for each plain name, an array for each subscripted one."""

    def __init__(self, body):
        self.plain, self.least, self.most = set(), {}, {}
        self.collect(body, {})

    def collect(self, body, bounds):
        for node in body:
            for item in getattr(node, "items", ()):
                self.add(item, bounds)
            if isinstance(node, Loop):
                if node.turns:
                    self.collect(node.body, {**bounds, node.var: (node.first, node.last)})
            elif hasattr(node, "body"):
                self.collect(node.body, bounds)

    def add(self, item, bounds):
        if item.index is None:
            self.plain.add(item.name)
            return
        low, high = bounds.get(item.index.var, (0, 0))
        least, most = low + item.index.offset, high + item.index.offset
        self.least[item.name] = min(self.least.get(item.name, least), least)
        self.most[item.name] = max(self.most.get(item.name, most), most)

    def declarations(self):
        lines = [f"static char at_{name};" for name in sorted(self.plain)]
        for name in sorted(self.least):
            lines.append(f"static char at_{name}_[{self.most[name] - self.least[name] + 1}];")
        return "\n".join(lines)

    def of(self, item):
        """The variable of an item."""
        if item.index is None:
            return f"at_{item.name}"
        offset = item.index.offset - self.least.get(item.name, 0)
        var = f"v_{item.index.var} + " if item.index.var else ""
        return f"at_{item.name}_[{var}{offset}]"


def follows(item, run):
    """Whether an item is of the same array as those of a run, at the next place."""
    first = run[0]
    return item.name == first.name and None not in (item.index, first.index) and \
        item.index.var == first.index.var and item.index.offset == first.index.offset + len(run)


def rows(items):
    """The longest runs of neighbouring items that are at places one after another."""
    found = []
    for item in items:
        if found and follows(item, found[-1]):
            found[-1].append(item)
        else:
            found.append([item])
    return found


def over_row(kind, row, place_of):
    """The clause of a row of items: one place, or all by an iterator."""
    place = place_of(row[0])
    if row[0].index is None:
        return f" depend({kind}: {place})"
    return f" depend(iterator(at = 0:{len(row)}), {kind}: {place[:-1]} + at])"


def clauses(task, place_of):
    """The clauses of a task's items; `place_of` is the variable of an item."""
    runs = [(kind_in_c(kind, task), items) for kind, items in item_runs(task.items)]
    if "iterator" in task.clauses:
        return "".join(over_row(kind, row, place_of) for kind, items in runs for row in rows(items))
    return "".join(f" depend({kind}: {', '.join(map(place_of, items))})" for kind, items in runs)


class Objects:
    """The items of a task as depend objects: what comes before the task, its clause, and what comes after it."""

    def __init__(self, task, place_of):
        names = [f"object_{number}" for number in range(len(task.items))]
        self.declaration = f"omp_depend_t {', '.join(names)};"
        self.before = [f"depobj({name}) depend({kind_in_c(item.kind, task)}: {place_of(item)})"
                       for name, item in zip(names, task.items)]
        self.clause = f" depend(depobj: {', '.join(names)})"
        self.after = [f"END_OF_OBJECT({name})" for name in names]


class Emitter:
    """Walks over a program. A segment's number is a constant, plus a stride for each turn of each loop around it."""

    def __init__(self, body):
        self.locations, self.regions = Locations(body), is_of_regions(body)
        self.lines, self.next, self.strides, self.tasks, self.finals = [], 0, [], 0, 0
        self.sum, self.sums = "", 0  # the sum to which tasks add here, and how many sums there are
        self.cancelled = False       # whether tasks may cancel the group here
        self.start(1)
        self.body(body, 1)
        self.put(1, "segment_finish();")

    def put(self, indent, line):
        self.lines.append("    " * indent + line)

    def pragma(self, words):
        self.lines.append(f"#pragma omp {words}")

    def segment(self, number):
        turns = [f" + {stride}u * (unsigned)(v_{loop.var} - {loop.first})" for loop, stride in self.strides]
        return f"{number}u{''.join(turns)}"

    def start(self, indent):
        self.put(indent, f"segment_start({self.segment(self.next)});")
        self.next += 1

    def body(self, body, indent):
        calls = {Wait: self.wait, Group: self.group, Loop: self.loop, Task: self.task}
        for node in body:
            if not isinstance(node, Work):  # the harness looks up each segment's cost
                calls[type(node)](node, indent)

    def wait(self, node, indent):
        self.put(indent, "segment_finish();")
        self.pragma("taskwait")
        self.start(indent)

    def group(self, node, indent):
        form = form_of(node)
        if form == "parallel" and self.regions:
            self.region(node, indent)
        elif form == "taskyield":
            self.put(indent, "segment_finish();")
            self.pragma("taskyield")
        elif form == "taskloop" and not self.finals:
            self.task_loop(node.body[0], chunks_of(node), indent, clause=" reduction" * has_sum(node))
        elif form == "reduction":
            self.summed(node, indent)
        else:
            self.block(node, "taskgroup", indent, "")
        self.start(indent)

    def block(self, node, pragma, indent, its_sum):
        around, self.sum, self.cancelled = (self.sum, self.cancelled), its_sum, is_cancelled(node) and not self.finals
        self.pragma(pragma)
        self.put(indent, "{")
        self.body(node.body, indent + 1)
        self.put(indent + 1, "segment_finish();")
        self.put(indent, "}")
        self.sum, self.cancelled = around

    def new_sum(self, indent):
        self.sums += 1
        self.put(indent, f"{{ long sum_{self.sums} = 0;")
        return f"sum_{self.sums}"

    def summed(self, node, indent):
        """A group whose tasks each add one to a sum."""
        name = self.new_sum(indent)
        self.block(node, f"taskgroup task_reduction(+: {name})", indent, name)
        self.put(indent, f'expect("the sum of a group", {name}, {addends(node.body)}); }}')

    def region(self, node, indent):
        """The tasks of a group as the implicit tasks of a parallel region, whose end waits as a group's does."""
        self.put(indent, "segment_finish();")
        at = self.next - 1
        for task in node.body:
            at += segment_count((task,))
            self.put(indent, f"segment_pass({at}u);")
        self.pragma("parallel num_threads(threads)")
        self.put(indent, f"{{ team_begins(); for (int part = omp_get_thread_num(); part < {len(node.body)}; "
                         "part += omp_get_num_threads()) switch (part) {")
        for part, task in enumerate(node.body):
            self.put(indent, f"case {part}: {{")
            self.start(indent + 1)
            self.body(task.body, indent + 1)
            self.put(indent + 1, "segment_finish();")
            self.put(indent + 1, "break;")
            self.put(indent, "}")
            self.next += 1
        self.put(indent, "} }")

    def loop(self, node, indent):
        if not node.turns:
            return
        if form_of(node) == "taskloop" and not self.finals:
            self.task_loop(node, chunks_of(node), indent, " nogroup")
            self.start(indent)
            return
        stride, first = segment_count(node.body), self.next
        self.put(indent, head_of(node))
        self.strides.append((node, stride))
        self.body(node.body, indent + 1)
        self.strides.pop()
        self.put(indent, "}")
        self.next = first + stride * node.turns

    def task_loop(self, node, chunks, indent, clause=""):
        """A loop of tasks as a taskloop, each turn a task where nothing is said of chunks. It may make its tasks in any
        order, so all segments from which it makes them come before it; without a group the last one is left to go on
        after it."""
        task, stride, first, nogroup = node.body[0], segment_count(node.body), self.next, clause == " nogroup"
        last = node.turns - 1 if nogroup else node.turns
        self.put(indent, "segment_finish();")
        self.put(indent, f"for (unsigned turn = 1; turn <= {last}; turn++) "
                         f"segment_pass({self.segment(first - 1)} + {stride}u * turn);")
        name = self.new_sum(indent) if clause == " reduction" else ""
        words = f"{clause}(+: {name})" if name else clause
        copied, own = self.copy(task, indent), self.own_turn(task, chunks, indent)
        self.pragma(f"taskloop{written_chunks(chunks, node)}{words}{self.clauses(task)}{copied}{own}")
        self.put(indent, head_of_taskloop(node))
        self.put(indent + 1, f"if (!is_turn((long)v_{node.var}, {node.first}, {node.last})) continue;")
        self.strides.append((node, stride))
        if own:
            self.put(indent + 1, f"{is_known(chunks)}taskloop_turn(&own_turn, {self.segment(self.next)});")
        self.task_body(task, indent + 1, name, copied)
        self.strides.pop()
        self.put(indent, "}" + " }" * (bool(copied) + bool(own)))
        if name:
            self.put(indent, f'expect("the sum of a taskloop", {name}, {node.turns}); }}')
        self.next = first + stride * node.turns - (1 if nogroup else 0)

    def task(self, node, indent):
        self.put(indent, "segment_finish();")
        if is_wait_for_items(node):
            self.pragma("taskwait" + self.depend(node))
            self.put(indent, f"segment_pass({self.segment(self.next)});")
            self.next += 1
            self.start(indent)
            return
        if is_target(node) and not self.finals:
            self.target(node, indent)
        elif is_detached(node) and not self.finals:
            self.detached(node, indent)
        elif "depobj" in node.clauses and node.items:
            self.by_objects(node, indent)
        else:
            self.plain_task(node, self.depend(node), indent)
        self.start(indent)

    def plain_task(self, node, depend, indent):
        its_sum, copied = self.sum if adds(node) else "", self.copy(node, indent)
        its_part = f" in_reduction(+: {its_sum})" if its_sum else ""
        self.pragma("task" + self.clauses(node) + depend + its_part + copied)
        self.put(indent, "{")
        self.task_body(node, indent + 1, its_sum, copied)
        self.put(indent, "}" + " }" * bool(copied))

    def copy(self, node, indent):
        """The clause of a task that has data of its own, which a function of the compiler copies; before it, these."""
        if "copied" not in node.clauses:
            return ""
        self.put(indent, f"{{ unsigned copied[COPIED_LENGTH]; copied[0] = {self.tasks}u;")
        return " firstprivate(copied)"

    def own_turn(self, task, chunks, indent):
        """The clause of a taskloop whose tasks each tell by which turn they begin; before it, what each has for that.
        A task that may be merged has no data of its own."""
        if chunks in ("", "any") or "mergeable" in task.clauses:
            return ""
        self.put(indent, "{ unsigned own_turn = 0;")
        return " firstprivate(own_turn)"

    def target(self, node, indent):
        """A task as one of `target nowait`, where the runtime makes tasks of these for the host. Outside of a region
        nothing would wait for it in the end."""
        depend, block = self.depend(node), f"{{ segment_pass_on_host({self.segment(self.next)}); }}"
        self.lines.append("#ifdef HAS_HOST_TARGET")
        self.put(indent, "if (conformance_in_region) {")
        self.pragma(f"target nowait{depend}")
        self.put(indent, block)
        self.put(indent, "} else")
        self.lines.append("#endif")
        self.put(indent, "{")
        self.pragma("task" + self.clauses(node) + depend)
        self.put(indent, block)
        self.put(indent, "}")
        self.next += 1

    def by_objects(self, node, indent):
        """A task whose items are depend objects."""
        objects = Objects(node, self.locations.of)
        self.put(indent, f"{{ {objects.declaration}")
        for words in objects.before:
            self.pragma(words)
        self.plain_task(node, objects.clause, indent)
        for words in objects.after:
            self.put(indent, words)
        self.put(indent, "}")

    def detached(self, node, indent):
        """A task that an event completes. The task that fulfils it runs the inner one's part and the last one."""
        self.put(indent, "{ omp_event_handle_t event = (omp_event_handle_t)0;")
        self.pragma(f"task detach(event){self.clauses(node)}{self.depend(node)}")
        self.put(indent, "{")
        self.start(indent + 1)
        self.put(indent + 1, "segment_finish();")
        self.pragma("task firstprivate(event)")
        self.put(indent + 1, "{")
        self.start(indent + 2)
        self.put(indent + 2, "segment_finish();")
        self.put(indent + 2, f"segment_pass({self.segment(self.next)});")
        self.next += 1
        self.put(indent + 2, "omp_fulfill_event(event);")
        self.put(indent + 1, "}")
        self.put(indent, "}")
        self.put(indent, "}")

    def task_body(self, node, indent, its_sum, copied):
        around, self.sum, self.cancelled = (self.sum, self.cancelled), "", False
        self.finals += node.final
        self.start(indent)
        if copied:
            self.put(indent, f'expect("data of a task", copied[0], {self.tasks - 1});')
        if its_sum:
            self.put(indent, f"{its_sum} += 1;")
        self.body(node.body, indent)
        self.put(indent, "segment_finish();")
        self.finals -= node.final
        self.sum, self.cancelled = around
        if self.cancelled and "cancels" in node.clauses:
            self.pragma("cancel taskgroup")

    def clauses(self, node):
        """Conditions are constants in every other task, since a compiler translates those in another way."""
        self.tasks += 1
        variable = self.tasks % 2
        words = "".join(f" {clause}" for clause in node.clauses if clause.partition("(")[0] in OF_TASKS)
        if node.undeferred:
            words += " if(conformance_no)" if variable else " if(0)"
        if node.final:
            words += " final(conformance_yes)" if variable else " final(1)"
        return words

    def depend(self, node):
        """The `depend` clauses of a task."""
        return clauses(node, self.locations.of)


def is_known(chunks):
    """Before what holds of `strict` alone: the compiler has to know it."""
    return "if (KNOWS_STRICT) " if "strict" in chunks else ""


def roles_of(table):
    """For each segment whether another task waits for its end, and whether it creates a task."""
    roles = [0] * len(table.cost)
    for segment in range(len(roles)):
        for need in table.needs(segment):
            if need.rule == "creation":
                roles[need.before] |= CREATES
            elif need.rule != "order":
                roles[need.before] |= WAITED_FOR
    return roles


def listed(numbers):
    return ", ".join(map(str, numbers)) or "0"


def c_text(body, table, preds):
    """The C file of a program, given its table of segments and each segment's predecessors."""
    emitter = Emitter(body)
    begins = [0]
    for row in preds:
        begins.append(begins[-1] + len(row))
    parts = {"TEXT": text_of(body).replace("*/", "* /"), "LOCATIONS": emitter.locations.declarations(),
             "COSTS": listed(table.cost), "PREDS_BEGIN": listed(begins),
             "PREDS": listed(before for row in preds for before in row),
             "ROLES": listed(roles_of(table)), "SEGMENTS": len(table.cost), "REGIONS": int(emitter.regions),
             "BODY": "\n".join(emitter.lines)}
    filled = TEMPLATE.read_text()
    for name, part in parts.items():
        filled = filled.replace(f"@{name}@", str(part))
    return filled
