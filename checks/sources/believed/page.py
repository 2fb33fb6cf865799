"""The lists of docs/BELIEVE.md: what each headline rests on beyond the headlines above it."""
import re
import textwrap

SECTION = re.compile(r"^(`(\w+(?:::\w+)+)`: )[^\n]*\n\n(?:- [^\n]*\n(?:- [^\n]*\n|  [^\n]*\n)*\n)?", re.M)
COLUMNS = 120


def total(definitions):
    return sum(definition.lines for definition in definitions)


def items(definitions):
    """One item: `crate`: `File`, `Other`; and so on, in the order of reading."""
    crates = {}
    for module in dict.fromkeys(definition.module for definition in definitions):
        crate, _, name = module.split(".")
        crates.setdefault(crate, []).append(f"`{name}`")
    reported = "; ".join(f"`{crate}`: {', '.join(files)}" for crate, files in crates.items())
    lines = textwrap.wrap(f"- {reported}", COLUMNS, subsequent_indent="  ", break_on_hyphens=False) if crates else []
    return "".join(f"{line}\n" for line in lines) + ("\n" if lines else "")


def counted(definitions):
    return f"{total(definitions):,}"


def with_lists(page, library, promises):
    """The page with each section's count and list made anew."""
    known = set()

    def made(section):
        found = library.rests_on(promises[section[2]])
        fresh = [definition for definition in found if definition not in known]
        known.update(found)
        new = "none" if not fresh else "all" if len(fresh) == len(found) else counted(fresh)
        return f"{section[1]}{counted(found)} lines, {new} new.\n\n{items(fresh)}"

    return SECTION.sub(made, page.rstrip("\n") + "\n\n").rstrip("\n") + "\n"
