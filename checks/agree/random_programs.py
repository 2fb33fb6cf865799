"""Random programs, programs of any size whose numbers are known by hand, and certificates with a wrong number."""
import random
import re

MILLION = 1_000_000
NAMES = ("a", "b", "c", "work", "in")
KINDS = ("in", "out", "inout", "inoutset")


# ---- random programs

def draw_clauses(rng):
    """The clauses of a task: now and then undeferred, often with depend items."""
    clauses = ["if(0)"] if rng.random() < 0.1 else []
    for _ in range(rng.choice((0, 0, 1, 1, 2))):
        names = ", ".join(rng.choice(NAMES) for _ in range(rng.randint(1, 3)))
        clauses.append(f"depend({rng.choice(KINDS)}: {names})")
    return " ".join(clauses)


def draw_statement(rng, depth):
    kind = rng.choice(("work", "work", "taskwait", "task", "task", "task", "taskgroup"))
    if kind == "work" or depth == 0:
        return f"work {rng.randint(0, 9)}"
    if kind == "taskwait":
        return kind
    block = draw_block(rng, depth - 1)
    return f"task {draw_clauses(rng)} {{ {block} }}" if kind == "task" else f"taskgroup {{ {block} }}"


def draw_block(rng, depth):
    return "\n".join(draw_statement(rng, depth) for _ in range(rng.randint(0, 5)))


def draw(seed):
    rng = random.Random(seed)
    return "omptasks 1\n" + draw_block(rng, 5) + "\n"


# ---- programs of a million tasks: the text, and tasks, segments, work and span by hand

def independent(count):
    text = "omptasks 1\n" + "task { work 2 }\n" * count + "taskwait\n"
    return text, (count, 2 * count + 2, 2 * count, 2 if count else 0)


def chain(count):
    text = "omptasks 1\n" + "task depend(inout: x) { work 2 }\n" * count
    return text, (count, 2 * count + 1, 2 * count, 2 * count)


def nested(depth):
    """Each task but the innermost creates one child, works, and waits for it."""
    text = "omptasks 1\n" + "task { work 1\n" * depth + "taskwait }\n" * depth
    return text, (depth, 3 * depth + 1, depth, depth)


def tree(levels):
    """Each task works, creates two children and waits for both; the leaves have none."""
    tasks = 2 ** levels - 1
    below = "task { work 1 }\n"
    for _ in range(levels - 1):
        below = "task { work 1\n" + below + below + "taskwait }\n"
    return "omptasks 1\n" + below, (tasks, 2 * tasks + 1 + (2 ** (levels - 1) - 1), tasks, levels)


# ---- answers

def segments_reported(span):
    """How many segments `span` tells; 1 of a text that is refused."""
    found = re.match(r"segments (\d+)\n", span)
    return int(found[1]) if found else 1


def with_another_number(certificate, rng):
    """The certificate with one number of its claim changed a little."""
    program, claim = certificate.split("---\n", 1)
    numbers = list(re.finditer(r"\d+", claim))
    found = rng.choice(numbers)
    number = max(0, int(found[0]) + rng.choice((-2, -1, 1, 2)))
    return f"{program}---\n{claim[:found.start()]}{number}{claim[found.end():]}"
