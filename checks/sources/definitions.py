#!/usr/bin/env python3
"""Lists the definitions of the crates: the files of each specs/ folder, with what each says of itself.

    checks/sources/definitions.py [CRATE ..]    lists those of these crates, or of all
    checks/sources/definitions.py --check       fails where a file does not say in its first lines what it is for
A file that begins with `Carried out:` says how the code works; the others are what a reader believes.
"""
import pathlib
import sys

from proof_map import purpose_of

TOP = pathlib.Path(__file__).resolve().parents[2]
CARRIED_OUT = "Carried out: "


def files_of(crate):
    """The files of a crate's definitions, by name."""
    return sorted(path for path in (TOP / "crates" / crate / "specs").glob("*.antt") if path.stem != "Lib")


def crates():
    lines = (TOP / "crates.txt").read_text(encoding="utf-8").splitlines()
    return [line.split()[0].rstrip(":") for line in lines if line.strip()]


def lines_of(crate, purposes):
    """The lines that list a crate: first what is believed, then how it is carried out."""
    believed = [(name, said) for name, said in purposes if not said.startswith(CARRIED_OUT)]
    carried = [(name, said.removeprefix(CARRIED_OUT)) for name, said in purposes if said.startswith(CARRIED_OUT)]
    for title, rows in (("", believed), (", carried out", carried)):
        if rows:
            yield "%s%s" % (crate, title)
            yield from ("  %-20s %s" % row for row in rows)


def main(words):
    unknown = [word for word in words if word != "--check" and word not in crates()]
    if unknown:
        sys.exit("definitions.py: no crate %s in crates.txt" % ", ".join(unknown))
    listed = {crate: [(path.stem, purpose_of(path.read_text(encoding="utf-8"))) for path in files_of(crate)]
              for crate in crates()}
    if words == ["--check"]:
        silent = ["%s/specs/%s.antt" % (crate, name)
                  for crate, rows in listed.items() for name, said in rows if not said]
        print(*("%s does not say what it is for" % one for one in silent), "%d wrong" % len(silent), sep="\n")
        return 1 if silent else 0
    for crate in words or crates():
        print(*lines_of(crate, listed[crate]), sep="\n")
    return 0


if __name__ == "__main__":
    sys.exit(main(sys.argv[1:]))
