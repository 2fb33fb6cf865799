"""Compares what the diagnosis of a recording says with what is known of the program."""
import os
import re
from typing import NamedTuple, Optional

from programs import WITHOUT_A_PLACE

NEAR_LINES = 1      # a debugger may lay a construct to the line beside its own
NEAR_POINTS = 10.0


class Answer(NamedTuple):
    """The first cause of a diagnosis. `gain` is in percent of the run's time; None where no change is named."""
    kind: str
    file: str
    lines: tuple
    gain: Optional[float]


class Verdict(NamedTuple):
    is_kind: bool
    is_place: bool
    is_gain: Optional[bool]     # None where it cannot be compared

    @property
    def is_right(self):
        return self.is_kind and self.is_place and self.is_gain is not False


def numbers_of(lines):
    """The first and the last one of `35`, `"18-25"`, `[18, 25]` or `[[18, 25], [40, 41]]`; none of nothing."""
    found = [int(number) for number in re.findall(r"\d+", str(lines or ""))]
    return (min(found), max(found)) if found else ()


def gain_of(change):
    """Percent."""
    if not change or not change.get("from_ms") or change.get("to_ms") is None:
        return None
    return 100 * (1 - change["to_ms"] / change["from_ms"])


def answer_of(reported):
    """Of what `spanprof-record --json` writes. A diagnosis without a cause says that nothing is to be gained."""
    causes = reported.get("diagnosis") or [{"kind": "efficient"}]
    first = causes[0]
    place = first.get("place") or {}
    return Answer(first["kind"], os.path.basename(place.get("file") or ""), numbers_of(place.get("lines")),
                  gain_of(first.get("change")))


def is_there(program, answer):
    """Whether the place has one of the marked lines."""
    if not program.lines:
        return True
    if answer.file != os.path.basename(program.source) or not answer.lines:
        return False
    first, last = answer.lines
    return any(first - NEAR_LINES <= line <= last + NEAR_LINES for line in program.lines)


def judged(program, answer, gain, is_quiet):
    """`gain` is the measured one, in percent; a change that the program cannot make, such as another machine, has no
    predicted one."""
    comparable = is_quiet and answer.gain is not None and program.kind not in WITHOUT_A_PLACE
    return Verdict(answer.kind == program.kind, is_there(program, answer),
                   abs(answer.gain - gain) <= NEAR_POINTS if comparable else None)
