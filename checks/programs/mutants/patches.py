"""The mutants: a patch each, whose head says which rule it breaks. The heads are those of Debian's DEP-3."""
import pathlib
from dataclasses import dataclass

FOLDER = pathlib.Path(__file__).resolve().parent
FIELDS = ("Description", "Rule", "Breaks")


class NoMutant(Exception):
    """A patch whose head lacks a field, or a name that no patch has."""


@dataclass(frozen=True)
class Mutant:
    """`breaks` is `yes`, or `no` and why: it is equivalent, or what it does is allowed."""
    name: str
    words: str
    rule: str
    breaks: str
    path: pathlib.Path

    @property
    def is_wrong(self):
        return self.breaks == "yes"


def read_mutant(path):
    """The mutant in a file."""
    head = path.read_text(encoding="latin-1").partition("\n\n")[0]
    fields = dict(line.split(": ", 1) for line in head.split("\n") if ": " in line)
    lacking = [field for field in FIELDS if field not in fields]
    if lacking:
        raise NoMutant(f"{path}: no {' and no '.join(lacking)}")
    return Mutant(path.stem, *(fields[field] for field in FIELDS), path)


def mutants_of(family, names=(), folder=None):
    """The mutants of a runtime, or those of a folder, or of these names, by rule and name."""
    found = {path.stem: read_mutant(path) for path in (folder or FOLDER / family).glob("*.patch")}
    unknown = sorted(set(names) - set(found))
    if unknown:
        raise NoMutant(f"no mutant {', '.join(unknown)} of {family}")
    return sorted((found[name] for name in names or found), key=lambda mutant: (mutant.rule, mutant.name))
