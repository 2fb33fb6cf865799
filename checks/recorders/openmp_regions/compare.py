"""Whether a recording has the structure that it must have. Each function tells the first difference, or nothing."""
from collections import defaultdict

from structure import costs, has_tasks, nodes

SAME_TYPE = {"out": "inout", "mutexinoutset": "inoutset"}  # as the recorder writes them


COST_LOST = "told elsewhere"  # the recorder's remark on it


class Names:
    """Which tasks name a location, in the program and in the text: the two must agree up to the names."""

    def __init__(self, costs_are_known, reading=0):
        self.costs_are_known = costs_are_known
        self.reading = reading
        self.tasks = 0
        self.wanted = defaultdict(list)
        self.found = defaultdict(list)

    def add(self, wanted, found):
        self.tasks += 1
        for kind, name in wanted:
            self.wanted[name].append((self.tasks, SAME_TYPE.get(kind, kind)))
        for kind, name in found:
            self.found[name].append((self.tasks, SAME_TYPE.get(kind, kind)))

    def difference(self):
        def uses(names):
            return sorted(sorted(use) for use in names.values())
        return "" if uses(self.wanted) == uses(self.found) else "the names of dependences differ between tasks"


def kinds(items):
    return sorted(SAME_TYPE.get(kind, kind) for kind, _ in items)


def node_difference(wanted, found, names):
    if wanted.kind != found.kind or wanted.undeferred != found.undeferred or not is_at(wanted, found):
        return "%s where %s must stand" % (found.reported(), wanted.reported())
    if kinds(wanted.depend) != kinds(found.depend):
        return "%s has the items %s, and not %s" % (wanted.reported(), found.depend, wanted.depend)
    names.add(wanted.depend, found.depend)
    return body_difference(wanted.body, found.body, names, "in the " + wanted.reported())


def body_difference(wanted, found, names, where):
    """Nodes are the same one by one, and no cost is less than what the program spends there, but for one reading of the
    clock, if all of it is known."""
    first, second = nodes(wanted), nodes(found)
    for one, other in zip(first, second):
        difference = node_difference(one, other, names)
        if difference:
            return difference
    if len(first) != len(second):
        longer, fault = (first, "missing") if len(first) > len(second) else (second, "too many")
        return "%s: a %s is %s" % (where, longer[min(len(first), len(second))].reported(), fault)
    for place, (least, cost) in enumerate(zip(costs(wanted), costs(found))):
        if cost + names.reading < least and names.costs_are_known:
            return "%s: %d ns before step %d where the program spends %d" % (where, cost, place, least)
    return ""


def is_at(wanted, found):
    """Whether the line is the one that must be reported."""
    return found.line == wanted.line or (wanted.is_hidden and not found.line)


def begins_with(steps, wanted):
    """Whether these nodes stand first, going by their lines and kinds."""
    return 0 < len(wanted) <= len(steps) and all(
        is_at(one, other) and one.kind == other.kind for one, other in zip(wanted, steps))


def executed(phase, steps, least, times):
    """The pieces that a thread executed, in the order of the program, or None where no pieces are its nodes."""
    if not steps:
        return []
    for i in range(least, len(phase)):
        piece = phase[i]
        wanted = nodes(piece.body)
        if len(times[i]) >= piece.times or not begins_with(steps, wanted):
            continue
        is_last = piece.who != "turns"
        rest = executed(phase, steps[len(wanted):], i + is_last, times)
        if rest is not None:
            return [i] + rest
    return None


def thread_difference(phase, body, names, times):
    """One thread's body is that of the pieces that it executed; counts these in `times`."""
    order = executed(phase, nodes(body), 0, times)
    if order is None:
        return "a thread's code is not made of parts of the region: " + ", ".join(n.reported() for n in nodes(body))
    for i in order:
        times[i].append(id(body))
    wanted = [step for i in order for step in phase[i].body]
    return body_difference(wanted, body, names, "a thread's code")


def times_difference(phase, times):
    first = set()
    for i, piece in enumerate(phase):
        threads = times[i]
        if piece.who == "first":
            first |= set(threads)
        if has_tasks(piece.body) and len(threads) != piece.times:
            return "code of line %d is recorded %d times and executed %d times" % (
                nodes(piece.body)[0].line, len(threads), piece.times)
    return "what the first thread executes is recorded of two" if len(first) > 1 else ""


def phase_difference(phase, bodies, names):
    times = defaultdict(list)
    for body in bodies:
        difference = thread_difference(phase, body, names, times)
        if difference:
            return difference
    return times_difference(phase, times)


def difference(shape, recorded):
    """What is wrong with the text of a region; nothing where it is right."""
    wanted = [phase for phase in shape.phases if any(has_tasks(piece.body) for piece in phase)]
    found = [[body for body in bodies if has_tasks(body)] for bodies in recorded.phases]
    found = [bodies for bodies in found if bodies]
    if len(wanted) != len(found):
        return "%d phases with tasks, and not %d" % (len(found), len(wanted))
    names = Names(not recorded.says(COST_LOST), recorded.reading)
    for phase, bodies in zip(wanted, found):
        reported = phase_difference(phase, bodies, names)
        if reported:
            return reported
    return names.difference()
