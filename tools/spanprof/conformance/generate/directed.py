"""The directed programs: one file each in directed/, named for what it shows, with a comment that says it."""
from spanprof.conformance.data import DATA
from spanprof.conformance.emit.forms import kind_in_c
from spanprof.conformance.generate.program import Task, nodes
from spanprof.conformance.generate.text_reader import read_program

FOLDER = DATA / "directed"


def directed_files():
    return sorted(FOLDER.glob("*.tasks"))


def directed_programs():
    """Pairs of a name and a program, by name."""
    return [(path.stem, read_program(path.read_text())) for path in directed_files()]


def first_comment(name):
    """What a directed program shows."""
    lines = (FOLDER / f"{name}.tasks").read_text().split("\n")
    return " ".join(line[1:].strip() for line in lines if line.startswith("# "))


def kinds_of(body):
    """The kinds of depend items that a program has in C."""
    return {kind_in_c(item.kind, node) for node in nodes(body) if isinstance(node, Task) for item in node.items}
