"""Made recordings: the text that a faultless recorder would write, for tests without compiler or runtime."""
from recorded import PART
from structure import Node


def lines(body, indent=0):
    out = []
    for step in body:
        pad = "  " * indent
        if not isinstance(step, Node):
            out.append("%swork %d" % (pad, step))
            continue
        clauses = " if(0)" * step.undeferred
        clauses += "".join(" depend(%s: a%d)" % (kind, place) for kind, place in step.depend)
        block = "" if step.kind == "taskwait" else " {"
        out.append("%s%s%s%s  # region.c:%d" % (pad, step.kind, clauses, block, step.line))
        if block:
            out += lines(step.body, indent + 1) + [pad + "}"]
    return out


def text(shape, threads_of_phases):
    """A text with these bodies: for each phase those of its threads; a single one is the text itself."""
    head = ['# recorded: {"program": "region", "threads": %d, "clock": "wall", "unit": "ns"}' % shape.threads,
            '# region: {"at": "region.c:%d", "number": 1, "of": 1}' % shape.line]
    if sum(map(len, threads_of_phases)) == 1:
        return "\n".join(head + ["omptasks 1"] + lines(threads_of_phases[0][0])) + "\n"
    out = head + ["omptasks 1"]
    for bodies in threads_of_phases:
        out.append("taskgroup {")
        for body in bodies:
            out += ["  task {  # " + PART] + lines(body, 2) + ["  }"]
        out.append("}")
    return "\n".join(out) + "\n"
