"""What the sentences of a summary claim, read as somebody reads them who decides about the program."""
import re
from dataclasses import dataclass, field
from typing import Dict, Optional

UNITS = {"ns": 1e-6, "us": 1e-3, "ms": 1.0, "s": 1e3}
NUMBER = r"([\d,]+(?:\.\d+)?)"


@dataclass
class Summary:
    """Times in milliseconds. A claim that is not made is None, or no key."""
    lines: list
    work: Optional[float] = None
    is_work_doubted: bool = False   # by a remark
    is_span_doubted: bool = False
    share: Optional[float] = None   # of the program's thread-time
    is_called_a_part: bool = False
    busy: Optional[float] = None
    end_on_any: Optional[float] = None      # no number of threads ends sooner
    gain_on_any: Optional[float] = None     # no number of threads gains more
    lock_gain: Optional[float] = None       # no run gains more
    at_most: Dict[int, float] = field(default_factory=dict)     # by the number of threads
    at_least: Dict[int, float] = field(default_factory=dict)


def blocks(lines):
    """The summaries, one for each recording, without what is printed before the first."""
    starts = [i for i, line in enumerate(lines) if re.match(r"\S+\.spanprof, the whole program", line)]
    return [lines[i:j] for i, j in zip(starts, starts[1:] + [None])]


def number(words):
    return float(words.replace(",", ""))


def by_name(lines):
    """The lines under each name."""
    out, name = {}, ""
    for line in lines:
        name = line[:13].strip() or name
        out.setdefault(name, []).append(line[14:])
    return out


def time_of(line):
    """The number of a line with its unit, such as `156 ms`."""
    found = re.match(NUMBER + r" (ns|us|ms|s)\b", line)
    return number(found[1]) * UNITS[found[2]] if found else None


def read_threads(summary, lines):
    for line in lines:
        if "at least" in line:
            summary.at_least.update((int(p), number(x)) for p, x in re.findall(r"(\d+): (?:at least )?([\d.]+)", line))
        elif "the program's may be more" not in line:
            pairs = re.findall(r"(\d+): (?:up to |at most )?(?:[\d.]+ to )?([\d.]+)", line)
            summary.at_most.update((int(p), number(x)) for p, x in pairs)
            lower = re.findall(r"(\d+): ([\d.]+) to [\d.]+", line)
            summary.at_least.update((int(p), number(x)) for p, x in lower)


def first(named, name):
    return named.get(name, [""])[0]


def read(lines):
    named = by_name(lines[1:])
    out = Summary(lines, work=time_of(first(named, "work")))
    out.is_work_doubted, out.is_span_doubted = (
        any(re.search(name + ".* too ", line) for line in named.get("warnings", [])) for name in ("work", "span"))
    share = re.search(r"([\d.]+) % of the program's thread-time", first(named, "covers"))
    out.share = float(share[1]) / 100 if share else None
    out.is_called_a_part = "of the program's thread-time" in lines[0]
    busy = re.search(r"([\d.]+) (?:of them busy|times as fast)", first(named, "elapsed"))
    out.busy = float(busy[1]) if busy else None
    if re.search("lower bound|ends (no )?sooner", first(named, "span")):
        out.end_on_any = time_of(first(named, "span"))
    if re.search("speedup|gives", first(named, "parallelism")):
        out.gain_on_any = number(re.match(NUMBER, first(named, "parallelism"))[1])
    gain = re.search("speedup at most ([\\d.]+)", first(named, "locks"))
    out.lock_gain = float(gain[1]) if gain else None
    read_threads(out, named.get("threads", []))
    return out
