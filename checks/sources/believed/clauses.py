"""What the public functions of a crate promise: the text of their clauses, and what its names stand for."""
import re
from dataclasses import dataclass

from believed.definitions import imports_of

FUNCTION = re.compile(r"^( *)pub (?:extern \S+ )?fn (\w+)", re.M)
TYPE = re.compile(r"^impl(?:<[^\n]*?>)? (?:([\w]+)(?:<[^\n]*?>)? for )?(\w+)", re.M)
BLANKED = re.compile(r'//[^\n]*|"(?:\\.|[^"\\\n])*"|b?\'(?:\\.|[^\'\\\n])\'')
CLAUSE = re.compile(r"\b(requires|ensures|err|ok)\b")


@dataclass(frozen=True)
class Promise:
    """A public function with the text of its clauses, and what the names in it stand for."""
    crate: str
    name: str
    clauses: str
    imports: tuple

    @property
    def title(self):
        return f"{self.crate}::{self.name}"


def with_blanks(text):
    """The same text with comments, strings and characters blanked, so that braces pair."""
    return BLANKED.sub(lambda found: "_" * len(found[0]), text)


def end_of_braces(text, start):
    """Where the brace that opens at `start` closes."""
    depth = 0
    for place in range(start, len(text)):
        depth += {"{": 1, "}": -1}.get(text[place], 0)
        if depth == 0:
            return place + 1
    raise ValueError("a brace is open at the end")


def clauses_after(text, start):
    """The clauses between a function's head and its body."""
    kept, place = [], start
    while True:
        brace = text.find("{", place)
        if brace < 0:
            return " ".join(kept)
        head = text[place:brace]
        if not CLAUSE.search(re.sub(r"//.*", "", head)):
            return " ".join(kept)
        end = end_of_braces(text, brace)
        kept.append(text[brace:end])
        place = end


def head_end(text, start):
    """Where the clauses of a function may begin: after its parameters and result."""
    return text.index("(", start)


def models_of(text):
    """The views and invariants of each type of a file, by the type's name."""
    found = {}
    for head in re.finditer(r"^impl(?:<.*?>)? Model for (\w+).*?\{", text, re.M):
        body = text[head.end() - 1:end_of_braces(text, head.end() - 1)]
        found[head[1]] = found.get(head[1], "") + " ".join(
            body[part.end() - 1:end_of_braces(body, part.end() - 1)]
            for part in re.finditer(r"ghost (?:view|Value) = \{", body))
    return found


def owners_of(text):
    """The ranges of `impl` blocks, each with its type."""
    found = []
    for head in re.finditer(r"^impl\b[^{;]*\{", text, re.M):
        name = TYPE.match(head[0])
        if name:
            found.append((head.start(), end_of_braces(text, head.end() - 1), name[2]))
    return found


def promises_of(crate, text):
    """The public functions of a file with clauses. A method is named with its type."""
    imports = tuple(sorted(imports_of(text).items()))
    text = with_blanks(text)
    owners, models, found = owners_of(text), models_of(text), []
    for function in FUNCTION.finditer(text):
        owner = next((name for start, end, name in owners if start < function.start() < end), None)
        clauses = clauses_after(text, head_end(text, function.end()))
        if owner:
            clauses += " " + models.get(owner, "")
        if clauses.strip():
            found.append(Promise(crate, f"{owner}::{function[2]}" if owner else function[2], clauses, imports))
    return found
