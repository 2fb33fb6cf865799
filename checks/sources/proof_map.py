#!/usr/bin/env python3
"""Prints the map of the proofs: which lemma file is for what, stands on what, and serves which function.

    checks/sources/proof_map.py [CRATE ..]    that of these crates, or of all
    checks/sources/proof_map.py --check       fails where a lemma file says nothing of itself, or nothing names it
A lemma file says in its first line what it is for. What it stands on are the lemma files that it imports; it serves
the functions whose written proofs import it. A `+` stands before functions that call one another.
"""
import pathlib
import re
import sys

TOP = pathlib.Path(__file__).resolve().parents[2]
BY_TACTIC = re.compile(r"\bcrate::proofs::(\w+)::")
IMPORT = re.compile(r"^(?:pub )?use Rattle\.(\w+)\.proofs\.(\w+)\b", re.M)


def imports_of(text, own):
    """The lemma files of the repository's own crates that a file imports, each as its crate and its name."""
    return sorted({pair for pair in IMPORT.findall(text) if pair[0] in own})


def purpose_of(text):
    """What a file says of itself at its head, up to the end of the first sentence, without a full stop."""
    said = []
    for line in text.splitlines():
        if not line.startswith("--"):
            break
        said.append(line.removeprefix("--").strip())
    first = re.split(r"(?<=[.])\s+(?=[A-Z`])", " ".join(said))[0]
    return first.rstrip(".")


def function_of(path):
    """The function whose proof stands in a file below proofs/, as `Meter::end_task` for meter/Meter/end_task/."""
    parts = pathlib.PurePosixPath(path).parent.parts
    named = [part for part in parts if part[0].isupper() or part == "laws"][:1] + [parts[-1]]
    return "::".join(dict.fromkeys(named))


def rooms_of(library):
    """The headings of a proofs/Lib.antt, each with the names of the lemma files under it."""
    rooms = [("", [])]
    for line in library.splitlines():
        named = re.match(r"(?:pub )?mod (\w+)", line)
        if named:
            rooms[-1][1].append(named[1])
        elif line.startswith("-- "):
            rooms.append((line.removeprefix("-- "), []))
    return [(heading, names) for heading, names in rooms if names]


class Crate:
    """The lemma files of a crate, room by room, and the written proofs of its functions."""

    def __init__(self, name, files, source=""):
        """Of the texts of all files below proofs/ by their path, and of all its source."""
        self.by_tactic = set(BY_TACTIC.findall(source))
        self.name = name
        self.rooms = rooms_of(files.get("Lib.antt", ""))
        self.lemmas = {one: files[one + ".antt"] for _, names in self.rooms for one in names}
        self.proofs = {path: text for path, text in files.items() if "/" in path}
        listed = {name + ".antt" for name in self.lemmas} | {"Lib.antt"}
        self.left_out = sorted(path.removesuffix(".antt") for path in set(files) - set(self.proofs) - listed)


def crate_at(folder):
    files = {str(path.relative_to(folder)): path.read_text() for path in sorted(folder.rglob("*.antt"))}
    source = "\n".join(path.read_text() for path in sorted((folder.parent / "src").rglob("*.rt")))
    return Crate(folder.parent.name, files, source)


def served_by(crates):
    """For each lemma file, by crate and name: the crates and functions whose written proofs import it."""
    served, own = {}, {crate.name for crate in crates}
    for crate in crates:
        for path, text in crate.proofs.items():
            for lemma in imports_of(text, own):
                served.setdefault(lemma, set()).add((crate.name, function_of(path)))
    return served


def listed(crate, pairs):
    """Names of this crate, then those of other crates with the crate before them."""
    own = [f"`{name}`" for owner, name in sorted(pairs) if owner == crate]
    others = [f"`{owner}::{name}`" for owner, name in sorted(pairs) if owner != crate]
    return ", ".join(own + others)


def row(crate, name, served, own):
    below = imports_of(crate.lemmas[name], own)
    serves = served.get((crate.name, name), set())
    purpose = purpose_of(crate.lemmas[name]).replace("|", "\\|")
    return "| " + " | ".join([f"`{name}`", purpose, listed(crate.name, below), listed(crate.name, serves)]) + " |"


def section(crate, served, own):
    parts = [f"## `{crate.name}`"]
    for heading, names in crate.rooms:
        table = ["| File | What it is for | Stands on | Serves |", "|---|---|---|---|"]
        table += [row(crate, name, served, own) for name in names]
        parts += [f"### {heading}"] * bool(heading) + ["\n".join(table)]
    return "\n\n".join(parts)


def page_of(crates, names):
    """The sections of the named crates."""
    served, own = served_by(crates), {crate.name for crate in crates}
    return "\n\n".join(section(crate, served, own) for crate in crates if crate.name in names and crate.lemmas) + "\n"


def cited(crates):
    """The lemma files that others, or written proofs, import, or that a tactic of the source names."""
    own = {crate.name for crate in crates}
    imported = {lemma for crate in crates for text in [*crate.lemmas.values(), *crate.proofs.values()]
                for lemma in imports_of(text, own)}
    return imported | {(crate.name, name) for crate in crates for name in crate.by_tactic}


def faults(crates):
    """What is wrong with the lemma files: a line for each."""
    named = cited(crates)
    for crate in crates:
        for name, text in crate.lemmas.items():
            if not purpose_of(text):
                yield "%s/proofs/%s.antt does not say what it is for" % (crate.name, name)
            if (crate.name, name) not in named:
                yield "%s/proofs/%s.antt: no proof cites it" % (crate.name, name)
        yield from ("%s/proofs/%s.antt is not in Lib.antt" % (crate.name, name) for name in crate.left_out)


def crates_in_order():
    """The crates that have proofs, as crates.txt lists them."""
    names = [line.split()[0].rstrip(":") for line in (TOP / "crates.txt").read_text().splitlines() if line.strip()]
    return [crate_at(TOP / "crates" / name / "proofs") for name in names if (TOP / "crates" / name / "proofs").is_dir()]


def main(words):
    crates = crates_in_order()
    if words == ["--check"]:
        wrong = list(faults(crates))
        print(*wrong, "%d wrong" % len(wrong), sep="\n")
        return 1 if wrong else 0
    names = [crate.name for crate in crates]
    unknown = [word for word in words if word not in names]
    if unknown:
        sys.exit("proof_map.py: no proofs in crates/%s" % ", ".join(unknown))
    print(page_of(crates, words or names), end="")
    return 0


if __name__ == "__main__":
    sys.exit(main(sys.argv[1:]))
