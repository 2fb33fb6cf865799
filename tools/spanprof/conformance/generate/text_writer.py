"""The text of a program. How a statement is written in C stands in a comment that begins with `#:`, which spanprof does
not read."""
from spanprof.conformance.generate.program import Group, Loop, Task, Wait, Work, nodes


def needs_version_2(body):
    return any(isinstance(node, Loop) or isinstance(node, Task) and (node.final or any(i.index for i in node.items))
               for node in nodes(body))


def item_runs(items):
    """The longest runs of neighbouring items of one kind: pairs of the kind and its items."""
    runs = []
    for item in items:
        if runs and runs[-1][0] == item.kind:
            runs[-1][1].append(item)
        else:
            runs.append((item.kind, [item]))
    return runs


def head_of(node):
    """The text of a statement up to its block."""
    if isinstance(node, Work):
        return f"work {node.cost}"
    if isinstance(node, Wait):
        return "taskwait"
    if isinstance(node, Group):
        return "taskgroup"
    if isinstance(node, Loop):
        return f"for {node.var} {node.first} {node.last}"
    clauses = ["task"] + ["if(0)"] * node.undeferred + ["final(1)"] * node.final
    for kind, items in item_runs(node.items):
        clauses.append(f"depend({kind}: {', '.join(item.place for item in items)})")
    return " ".join(clauses)


def hint_of(node):
    """The comment that tells how a statement is written in C, where that is not the plain way."""
    words = node.clauses if isinstance(node, Task) else node.form.split()
    return f" #: {' '.join(words)}" if words and words[0] not in ("taskgroup", "for") else ""


def lines_of(body, indent=0):
    """The lines of a body's text."""
    pad = "    " * indent
    for node in body:
        if not hasattr(node, "body"):
            yield pad + head_of(node)
        elif not node.body and not hint_of(node):
            yield f"{pad}{head_of(node)} {{ }}"
        else:
            yield f"{pad}{head_of(node)} {{{hint_of(node)}"
            yield from lines_of(node.body, indent + 1)
            yield pad + "}"


def text_of(body):
    """The program's text, of version 1 where that will do."""
    header = f"omptasks {2 if needs_version_2(body) else 1}"
    return "\n".join([header, *lines_of(body)]) + "\n"
