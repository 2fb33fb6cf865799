"""The rule of mutually exclusive tasks, which spanprof's text does not have: siblings with `mutexinoutset` items on one
location run in any order, and one at a time. What the items make them wait for, and what waits for them, is that of
`inoutset`, on which spanprof decides. Where the proved program `spanprof_exclusion` is built, it judges; a plain search
finds the same."""
import subprocess
from dataclasses import dataclass

from spanprof.command import Fault
from spanprof.conformance.judge.segments import Made
from spanprof.folders import places_of, words_for

PARENT_ENDED = ", and the code of their parent has ended"


@dataclass(frozen=True)
class Claim:
    """That a task excludes its siblings at a location."""
    task: Made
    location: str

    def excludes(self, other):
        return self.task.parent is other.task.parent and self.location == other.location and self.task is not other.task


@dataclass(frozen=True)
class Overlap:
    """The event in which a task begins while another one is under way, and the claims of the two by their places."""
    event: int
    begins: int
    under_way: int


def claims_of(table):
    """By tasks, and those of one task by locations."""
    return [Claim(task, location) for task in table.tasks for location in sorted(task.exclusive)]


def first_overlap(claims, events):
    """The first event in which a task begins while one that excludes it has begun and is not complete, with the first
    claims of the two that stand against each other; None without one."""
    marked = set()   # the claims of tasks that are under way
    for place, event in enumerate(events):
        what, _, segment = event.split()
        begin = [at for at, claim in enumerate(claims) if what == "start" and claim.task.segments[0] == int(segment)]
        for one in begin:
            for other in sorted(marked):
                if claims[other].excludes(claims[one]):
                    return Overlap(place, one, other)
        marked.update(begin)
        if what == "finish":
            marked = {at for at in marked if claims[at].task.segments[-1] != int(segment)}
    return None


class ProvedSearch:
    """Asks the proved program for what `first_overlap` finds."""

    def __init__(self, words):
        self.words = words

    def __call__(self, claims, events):
        done = subprocess.run(self.words, input=log_text(claims, events), capture_output=True, text=True, check=False)
        reported = done.stdout.split()
        if done.returncode == 0 and reported == ["apart"]:
            return None
        if done.returncode != 1 or reported[:1] != ["overlap"]:
            raise Fault(f"{self.words[0]}: {done.stdout.strip() or f'it ended with status {done.returncode}'}")
        return Overlap(*map(int, reported[1:]))


def log_text(claims, events):
    """What the proved program reads."""
    locations = sorted({claim.location for claim in claims})
    lines = [f"exclusive {claim.task.parent.number} {locations.index(claim.location)} {claim.task.segments[0]} "
             f"{claim.task.segments[-1]}" for claim in claims]
    return "\n".join([*lines, *events, ""])


def found_search():
    """The proved search where its program is found, or else the plain one."""
    words = words_for("spanprof_exclusion", places_of("spanprof_exclusion"))
    return ProvedSearch(words) if words else first_overlap


def overlapping(table, events, search=first_overlap):
    """In words, the first event in which a task begins while one that excludes it has begun and is not complete; None
    without one."""
    claims = claims_of(table)
    found = search(claims, events) if claims else None
    if not found:
        return None
    begins, other = claims[found.begins], claims[found.under_way].task
    thread = events[found.event].split()[1]
    return f"event {found.event}: thread {thread} begins {table.name_of(begins.task.segments[0])} before task " \
           f"{other.number}, `{other.head}`, is complete: both have `mutexinoutset` items on {begins.location}" + \
           PARENT_ENDED * has_finished(events[:found.event], other.parent.segments[-1])


def has_finished(events, segment):
    return any(what == "finish" and int(one) == segment for what, _, one in map(str.split, events))


def is_below_exclusive(task, started=()):
    """Whether a task has `mutexinoutset` items or is below one that has, which has not begun by what has started."""
    is_here = bool(task.exclusive) and task.segments[0] not in started
    return is_here or task.parent is not None and is_below_exclusive(task.parent, started)


def rule_of(words):
    """What tells failures apart of which `overlapping` tells."""
    return "overlapping" + PARENT_ENDED * words.endswith(PARENT_ENDED)
