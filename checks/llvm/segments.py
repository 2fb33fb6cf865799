"""The table of segments that the converter writes beside a text of a whole program has to be that of the text, as the
tools cut one that has no table."""
import os
import sys

sys.path.append(os.path.join(os.path.dirname(os.path.abspath(__file__)), "..", "..", "tools"))
from spanprof.phases import added_up, names_with_regions  # noqa: E402
from spanprof.program_text import marks_of_file  # noqa: E402
from spanprof.segment_table import Code, Kind, code_of, read_into  # noqa: E402

COLUMNS = ("of", "task", "cost", "kinds", "sums", "own", "groups", "clauses")


def phases_of(code):
    """By place, of those that tell anything."""
    names = names_with_regions(code)
    return {names[row.kind]: tuple(row[1:]) for row in added_up(code) if any(row[1:])}


def differing(text, table):
    """The names of the columns that are others; all where there is no such file."""
    if not os.path.exists(table):
        return COLUMNS
    read, cut = read_into(Code(), table, Kind), code_of(marks_of_file(text))
    return [name for name in COLUMNS if getattr(read, name) != getattr(cut, name)] + \
        ["phases"] * (phases_of(read) != phases_of(cut))
