"""The rule of chunks, which spanprof's text does not have: by the clause of a taskloop, how many tasks it makes, and
how many turns each of them has. Where a log tells which turns went to one task, it is looked at here."""
import re
from dataclasses import dataclass

CLAUSE = re.compile(r"with `(\w+)\((strict)?")  # in the words of `wrong_chunks`


@dataclass(frozen=True)
class Taskloop:
    """One time that a taskloop is reached: its clause, and the first segment of each turn, as the loop in C counts."""
    clause: str
    turns: tuple


def clause_of(clause):
    """The name of a clause, its number, and whether it is strict."""
    name, _, inside = clause.rstrip(")").partition("(")
    modifier, colon, number = inside.rpartition(":")
    return name, int(number), bool(colon) and modifier == "strict"


def sizes_of(taskloop, turns):
    """How many turns each task has, in the order of their first ones; `turns` has for each turn the first one of its
    task. Nothing where the log does not tell all of them."""
    sizes = {}
    for turn in taskloop.turns:
        if turn not in turns:
            return []
        sizes[turns[turn]] = sizes.get(turns[turn], 0) + 1
    return list(sizes.values())


def wrong_grains(sizes, grain, strict):
    """What is wrong with tasks of a grain size: the last one of `strict` may have fewer turns."""
    least = min(grain, sum(sizes))
    if strict:
        wrong = [size for size in sizes[:-1] if size != grain] + [size for size in sizes[-1:] if size > grain]
        return f"has {wrong[0]} turns and not {grain}" if wrong else ""
    wrong = [size for size in sizes if not least <= size < 2 * grain]
    return f"has {wrong[0]} turns and not {least} to {2 * grain - 1}" if wrong else ""


def wrong_number(sizes, number, strict):
    """What is wrong with so many tasks: `strict` gives the first ones a turn more where the number does not divide."""
    turns = sum(sizes)
    number = min(number, turns)
    if len(sizes) != number:
        return f"is one of {len(sizes)} and not of {number}"
    shares = [turns // number + (place < turns % number) for place in range(number)]
    wrong = [pair for pair in zip(sizes, shares) if pair[0] != pair[1]] if strict else []
    return f"has {wrong[0][0]} turns and not {wrong[0][1]}" if wrong else ""


def wrong_in(table, taskloop, sizes):
    """In words, what is wrong with the sizes of a taskloop's tasks; nothing where they are right."""
    name, number, strict = clause_of(taskloop.clause)
    reported = (wrong_number if name == "num_tasks" else wrong_grains)(sizes, number, strict)
    return reported and \
        f"the taskloop with `{taskloop.clause}` whose first turn is {table.name_of(taskloop.turns[0])} " \
        f"has tasks of {', '.join(map(str, sizes))} turns: one {reported}"


def rule_of(words):
    """The short names of the clauses of which `wrong_chunks` tells."""
    return ", ".join(dict.fromkeys(f"{name}({strict})" if strict else name for name, strict in CLAUSE.findall(words)))


def wrong_chunks(table, log):
    """In words, the taskloops whose turns went to other tasks than their clauses say, the first one of each kind of
    clause; None without one."""
    turns, found = dict(map(tuple, log.turns)), {}
    for taskloop in table.taskloops if turns else ():
        sizes = sizes_of(taskloop, turns)
        reported = wrong_in(table, taskloop, sizes) if sizes else ""
        if reported:
            found.setdefault(rule_of(reported), reported)
    return "; ".join(found.values()) or None
