#!/usr/bin/env python3
"""Compares the promised signatures with those of the crates.

    checks/sources/signatures.py             what the crates do not have as promised; status 1 if there is anything
    checks/sources/signatures.py --all       every public signature of the crates, as it would stand in the list
signatures.txt lists what callers may rely on: each function, type and trait by the path by which a caller names it,
with all its arguments, cases and public fields in their order. A line that begins with a blank goes on the line before.
"""
import pathlib
import re
import sys

TOP = pathlib.Path(__file__).resolve().parents[2]
LIST = pathlib.Path(__file__).resolve().parent / "signatures.txt"
ITEM = re.compile(r"^( *)pub (fn|struct|enum|trait|type|const) (\w+)", re.M)
METHOD = re.compile(r"^    fn (\w+)", re.M)
IMPL = re.compile(r"^impl(?:<[^{]*?>)? (\w+)(?:<[^{]*>)? \{$", re.M)
END_OF_SIGNATURE = re.compile(r"\n *(?:requires|ensures|where)\b|\s*\{|;")
ANEW = re.compile(r"^pub use ([\w:]+) as (\w+);", re.M)   # a type under another name
NAMES = re.compile(r"^pub use (\w+)::(?:\{([^}]*)\}|(\w+));", re.M)
MODULE = re.compile(r"^(pub )?mod (\w+);", re.M)
# A type at the limits of the commands, and how a type or a function that takes any limits names them.
AT_LIMITS = re.compile(r"^pub type (\w+)(?:<\w+>)? = (\w+)<(?:\w+, )?MOST_SEGMENTS, MOST_TASKS_WITH_ROOT>;\n", re.M)
ANY_LIMITS = re.compile(r",?\s*\b(?:const SEGMENTS: u32,\s*const TASKS: u32|SEGMENTS, TASKS),?\s*(?=>)")


def one_line(code):
    """Code on one line, as rt fmt would lay it out if lines had no end."""
    code = re.sub(r"\s+", " ", code).strip()
    code = re.sub(r"([(\[]) ", r"\1", code)
    return re.sub(r",? ([)\]])", r"\1", re.sub(r", \}", " }", code)).replace("< ", "<")


def without_remarks(source):
    """The source without comments, attributes and what only the prover reads."""
    lines = [line.split("//")[0] for line in source.splitlines() if not re.match(r"\s*(#\[|#!\[|ghost )", line)]
    return ANEW.sub(r"pub type \2 = \1;", "\n".join(line for line in lines if line.strip()) + "\n")


def at_limits(crates):
    """The sources of each crate as those see them that keep to the limits of the commands: by the names of the types at
    these limits, and with no arguments for them."""
    names = {base: name for files in crates.values() for source in files.values()
             for name, base in AT_LIMITS.findall(source)}
    if not names:
        return crates
    of_any = re.compile(r"\b(?:" + "|".join(names) + r")\b")

    def seen(source):
        source = ANY_LIMITS.sub("", AT_LIMITS.sub("", source)).replace("<>", "")
        return of_any.sub(lambda found: names[found.group()], source)
    return {crate: {path: seen(source) for path, source in files.items()} for crate, files in crates.items()}


def block(source, start):
    """What stands between the first brace from a place on and the brace that closes it."""
    begin = depth = None
    for at in range(start, len(source)):
        if source[at] == "{":
            begin, depth = (at + 1, 1) if begin is None else (begin, depth + 1)
        elif source[at] == "}":
            depth -= 1
            if depth == 0:
                return source[begin:at]
    return ""


def fields(inside):
    """The public fields of a struct, or none where it shows none."""
    shown = re.findall(r"^    pub (\w+: .*),$", inside, re.M)
    return " { " + ", ".join(shown) + " }" if shown else ""


def signature(source, start):
    """The rest of a function's or trait's signature from a place on."""
    return one_line(source[start:END_OF_SIGNATURE.search(source, start).start()])


def of_type(kind, source, found):
    """What a public type's line says behind its name."""
    begin = source[found.end():source.index("\n", found.end())]
    parameters = re.match(r"<.*?>(?=\s|\(|;|$)", begin)
    shown = parameters.group() if parameters else ""
    if kind == "enum":
        return shown + " { " + one_line(block(source, found.end())).rstrip(",") + " }"
    if "{" not in begin:
        return shown
    return shown + fields(block(source, found.end()))


def owner(source, at):
    """The type whose impl a place stands in, with ::, or nothing."""
    before = [found for found in IMPL.finditer(source) if found.start() < at]
    return before[-1].group(1) + "::" if before else ""


def of_trait(source, found):
    """The lines of a trait: itself, and each of its functions."""
    name = found.group(3)
    yield name, "trait", signature(source, found.end())
    inside = block(source, found.end())
    for method in METHOD.finditer(inside):
        yield f"{name}::{method.group(1)}", "fn", signature(inside + "\n{", method.end())


def of_source(source):
    """Each public item of a file: its path there, its kind, and the rest of its line."""
    source = without_remarks(source)
    for found in ITEM.finditer(source):
        indent, kind, name = found.groups()
        if kind == "fn":
            path = owner(source, found.start()) + name if indent else name
            yield path, kind, signature(source, found.end())
        elif kind == "trait":
            yield from of_trait(source, found)
        elif kind in ("struct", "enum"):
            yield name, kind, of_type(kind, source, found)
        elif kind == "type":
            yield name, kind, one_line(source[found.end():source.index(";", found.end())])


def lines_of(items, prefix):
    """The items as lines of the list, by path, under the path of their module."""
    joined = {"trait": "", "fn": "", "struct": "", "enum": "", "type": " "}
    return {f"{prefix}::{path}": f"{kind} {prefix}::{path}{joined[kind]}{rest}".replace(" :", ":")
            for path, kind, rest in items}


def of_crate(name, files, others):
    """The public lines of a crate by path. `files` are its sources by the path below src/, `others` those below it."""
    root = without_remarks(files["lib.rt"])
    lines = lines_of(of_source(files["lib.rt"]), name)
    modules = {module: lines_of(of_source(files.get(module + ".rt", "")), f"{name}::{module}")
               for _, module in MODULE.findall(root)}
    for public, module in MODULE.findall(root):
        if public:
            lines.update(modules[module])
    for source, many, single in NAMES.findall(root):
        for shown in re.findall(r"\w+", many or single):
            lines.update(handed_on(name, shown, source, modules.get(source), others))
    lines.update(of_impls_apart(name, modules, lines))
    return lines


def of_impls_apart(crate, modules, lines):
    """The methods that stand in another module than their type, under the type's path."""
    types = {path.split("::")[-1]: path for path, line in lines.items() if line.startswith(("struct", "enum"))}
    found = {}
    for module, own in modules.items():
        for path, line in own.items():
            old = f"{crate}::{module}::"
            kind, _, method = path[len(old):].partition("::")
            if method and kind in types and f"{old}{kind}" not in own:
                new = f"{types[kind]}::{method}"
                found[new] = line.replace(path, new, 1)
    return found


def handed_on(crate, shown, source, own, others):
    """The lines of a name that a crate hands on: of a module of its own, or of a lower crate."""
    old = f"{crate}::{source}::{shown}" if own is not None else f"{source}::{shown}"
    new = f"{crate}::{shown}"
    from_there = own if own is not None else others.get(source, {})
    return {new + path[len(old):]: line.replace(old, new, 1) for path, line in from_there.items()
            if path == old or path.startswith(old + "::")}


def of_repository(top):
    """The public lines of all libraries, by path."""
    sources = {}
    for line in (top / "crates.txt").read_text().splitlines():
        name = re.split(r"[ :]", line)[0]
        folder = top / "crates" / name / "src"
        if (folder / "lib.rt").is_file():
            sources[name] = {str(path.relative_to(folder)): path.read_text() for path in folder.rglob("*.rt")}
    crates = {}
    for name, files in at_limits(sources).items():
        crates[name] = of_crate(name, files, crates)
    return {path: line for lines in crates.values() for path, line in lines.items()}


def promised(text):
    """The lines of the list, each whole."""
    whole = re.sub(r"\n +", " ", re.sub(r"^#.*\n", "", text, flags=re.M))
    return [one_line(line) for line in whole.splitlines() if line]


def faults(text, lines):
    """What the crates do not have as the list promises it."""
    for line in promised(text):
        path = re.match(r"\w+ ([\w:]+\w)", line).group(1)
        there = lines.get(path)
        if there is None:
            yield f"not there: {line}"
        elif there != line:
            yield f"promised: {line}\n   it is: {there}"


def main(words):
    lines = of_repository(TOP)
    if words == ["--all"]:
        print("\n".join(lines.values()))
        return 0
    wrong = list(faults(LIST.read_text(), lines))
    for line in wrong:
        print(line)
    print(f"{len(promised(LIST.read_text()))} signatures, {len(wrong)} wrong")
    return 1 if wrong else 0


if __name__ == "__main__":
    sys.exit(main(sys.argv[1:]))
