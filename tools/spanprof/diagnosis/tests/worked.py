"""Facts for tests: a run on four threads of 100 ms, whose parts a test sets."""

from spanprof.diagnosis.facts import Facts
from spanprof.diagnosis.places import TASK, Place, read_places
from spanprof.segment_table import read_code

MS = 1000000
TEXT = """omptasks 1
work 10
taskgroup {  # image.c:20
  task {  # one of the region's threads
    work 3
    task depend(in: a1) depend(inout: a0) {  # image.c:25
      work 40
    }
    work 2
    task depend(in: a2) depend(inout: a0) {  # image.c:25
      work 60
    }
    work 1
    taskwait  # image.c:30
    work 7
    task if(0) {  # image.c:33
      work 5
    }
  }
}
work 4
"""


def program(text=TEXT, unit=1):
    code = read_code(text.splitlines(True), "the text")
    return read_places(code, unit)


def place(name, kind=TASK, cost=40 * MS, pieces=8, tasks=8, **more):
    """One whose pieces cost the same."""
    at = name.partition(" at ")[2]
    return Place(name, kind, at, cost=cost, pieces=pieces, largest=cost // max(pieces, 1), tasks=tasks, **more)


def facts(places=(), **parts):
    """What is not given of the threads' time is code."""
    named = ("code", "recorder", "preempted", "asleep", "at_locks", "delayed", "starved", "outside")
    threads, elapsed = parts.pop("threads", 4), parts.pop("elapsed", 100 * MS)
    rest = threads * elapsed - sum(parts.get(name, 0) for name in named)
    found = Facts(program="image", threads=threads, elapsed=elapsed, processors=4,
                  places={one.name: one for one in places}, work=rest, **{"code": rest, **parts})
    found.tasks = found.tasks or sum(one.tasks for one in places)
    return found
