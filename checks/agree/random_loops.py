"""Random texts of version 2: loops, indices and `final`; one in four has something wrong."""
import random

NAMES = ("a", "b", "x")
KINDS = ("in", "out", "inout", "inoutset")
WRONG = ("}", "work", "for i 0 1 {", "task depend(in: a[k])", "task final(2) { }", "for i 0 1000001 { }",
         "task depend(in: a[1000001]) { }", "task if(0) if(0) { }", "work 1000000000001")


def draw_index(rng, variables):
    """What stands in the brackets of a location."""
    if not variables or rng.random() < 0.2:
        return rng.choice(("0", "1", "2", "-1", "-3"))
    return rng.choice(variables) + rng.choice(("", "", "+1", "-1", "-2"))


def draw_item(rng, variables):
    name = rng.choice(NAMES)
    return f"{name}[{draw_index(rng, variables)}]" if rng.random() < 0.7 else name


def draw_clauses(rng, variables):
    shares = (("if(0)", 0.1), ("final(1)", 0.15), ("final(0)", 0.05))
    clauses = [clause for clause, share in shares if rng.random() < share]
    for _ in range(rng.choice((0, 1, 1, 2))):
        items = ", ".join(draw_item(rng, variables) for _ in range(rng.randint(1, 3)))
        clauses.append(f"depend({rng.choice(KINDS)}: {items})")
    return " ".join(clauses)


def draw_loop(rng, depth, variables):
    variable = "ijklm"[len(variables)]
    first = rng.randint(0, 2)
    body = draw_block(rng, depth, (*variables, variable))
    return f"for {variable} {first} {first + rng.randint(-1, 3)} {{\n{body}}}".replace(" -1 {", " 0 {")


def draw_statement(rng, depth, variables):
    kind = rng.choice(("work", "work", "taskwait", "task", "task", "taskgroup", "for", "for"))
    if kind == "work" or depth == 0:
        return f"work {rng.randint(0, 9)}"
    if kind == "taskwait":
        return kind
    if kind == "for":
        return draw_loop(rng, depth - 1, variables)
    block = draw_block(rng, depth - 1, variables)
    head = f"task {draw_clauses(rng, variables)}" if kind == "task" else kind
    return f"{head} {{\n{block}}}"


def draw_block(rng, depth, variables):
    return "".join(draw_statement(rng, depth, variables) + "\n" for _ in range(rng.randint(0, 4)))


def draw_loops(seed):
    rng = random.Random(seed)
    text = "omptasks 2\n" + draw_block(rng, 4, ())
    if rng.random() < 0.25:
        lines = text.splitlines()
        lines.insert(rng.randint(1, len(lines)), rng.choice(WRONG))
        text = "\n".join(lines) + "\n"
    return text
