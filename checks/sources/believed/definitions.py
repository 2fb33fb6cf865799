"""The definitions of a file of specs/: each with its lines, and the names that it cites."""
import re
from dataclasses import dataclass

HEAD = re.compile(r"(?:(?:abbrev|unfoldable)\s+)?(?:pub\s+)?(?:record\s+|data\s+)?([^\s:({]+)")
USE = re.compile(r"^\s*(?:ghost |pub )*use (Rattle\.[\w.]+?)(?:\.\{([^}]*)\})?(?: as (\w+))?;?$")
WORD = re.compile(r"[^\W\d]\w*(?:[.-][^\W\d]\w*)*|[^\s\w(){}\[\].,;:λ]+")
ARM = re.compile(r"^  (?:pub )?(\w+) :", re.M)


@dataclass(frozen=True)
class Definition:
    """One definition: its module, its name, its text with the comment above it."""
    module: str
    name: str
    text: str

    @property
    def lines(self):
        return self.text.count("\n") + 1

    @property
    def words(self):
        return words_of(self.text)


def words_of(text):
    """The words of a text of definitions, strings and comments aside; a path is reported by its first part too."""
    bare = re.sub(r"(--|//).*", "", re.sub(r'"[^"\n]*"', "", text))
    found = set()
    for word in WORD.findall(bare):
        found |= {word, word.split(".")[0]}
    return found


def module_of(path):
    """`crates/a/specs/B.antt` is the module `a.specs.B`."""
    return ".".join([path.parts[-3], "specs", path.stem])


def imports_of(text):
    """What each name of a file stands for: a name to (module, name there), or to (module, None) for a whole module."""
    imports = {}
    for line in text.splitlines():
        use = USE.match(line)
        if not use:
            continue
        module = use[1].removeprefix("Rattle.")
        if use[2] is None:
            imports[use[3] or module.split(".")[-1]] = (module, None)
        for part in (use[2] or "").split(","):
            there, _, here = part.strip().partition(" as ")
            if there:
                imports[here or there] = (module, there)
    return imports


def blocks_of(text):
    """The runs of lines between blank lines, imports and headings left out."""
    kept = [line for line in text.splitlines() if not re.match(r"\s*(pub )?use |-- ----|pub mod ", line)]
    return [block.strip("\n") for block in re.split(r"\n\s*\n", "\n".join(kept)) if block.strip()]


def definitions_of(module, text):
    """The definitions of a file by name. The arms of a `data` stand for the whole."""
    found = {}
    for block in blocks_of(text):
        lines = block.splitlines()
        code = [line for line in lines if not line.startswith("--")]
        if not code:
            continue
        name = HEAD.match(code[0])[1]
        if name in found:
            block = found[name].text + "\n" + block
        found[name] = Definition(module, name, block)
    return found


def arms_of(definition):
    """The names of a `data`'s arms."""
    head = next(line for line in definition.text.splitlines() if not line.startswith("--"))
    return ARM.findall(definition.text) if re.match(r"(pub )?data ", head) else []
