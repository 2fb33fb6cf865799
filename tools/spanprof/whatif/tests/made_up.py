"""Small texts that the tests change."""
from spanprof.program_text import as_text, statements

SORT = """\
# recorded: {"program": "sort", "threads": 2, "clock": "cpu", "unit": "us"}
omptasks 1
work 4
taskgroup {  # sort.c:7
task {  # sort.c:8
work 10
}
work 1
task {  # sort.c:8
work 20
task {  # sort.c:9
work 6
}
taskwait  # sort.c:10
work 3
}
work 2
}
work 30
"""
ROW = """\
omptasks 1
task depend(out: a) {  # row.c:3
work 5
}
work 2
task depend(in: a) depend(inout: b) {  # row.c:3
work 6
}
work 1
task depend(in: b) {  # row.c:3
work 7
}
taskwait  # row.c:5
"""
LOOPS = """\
omptasks 1
work 4
taskgroup {  # tri.c:7
task depend(out: a) {  # one of the region's threads
taskgroup {  # the loop at tri.c:9
task depend(in: a) {  # turns of the loop at tri.c:9
work 10
}
task {  # turns of the loop at tri.c:9
work 20
}
}
task {  # tri.c:12
work 3
task {  # tri.c:13
work 6
}
}
taskgroup {  # the sections at tri.c:15
task {  # a section at tri.c:15
work 30
}
}
}
}
"""


def read(text):
    return list(statements(text.splitlines(True)))


def changed(text, *changes):
    """The changed text without its header, its lines joined by a blank each, and comments left out."""
    stream = statements(text.splitlines(True))
    for change in changes:
        stream = change(stream)
    return " ".join(line.partition("#")[0].strip() for line in as_text(stream).splitlines()).replace("omptasks 1 ", "")
