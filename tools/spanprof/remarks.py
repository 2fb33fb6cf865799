"""What a recording lacks, and what its converter reports of its log, in words: the head of a text has an object of JSON
for each remark, and the converter prints one for each message.

A remark has a name (`remark`). It may say how often it was seen and where, and in which direction the text's work or
span differs from the program's: `low`, `high` or `either`. What stands there in words of its own says nothing of that.
"""
import json
import os
from dataclasses import dataclass

from spanprof.command import DAMAGE

DIRECTIONS = {"low": "too low", "high": "too high", "either": "too low or too high"}
OF_ROUNDING = ("rounding to whole units, more than 2 % of the work", "")
# Of each name what was seen, and what is to be added to how it moves a number.
WORDS = {
    "one thread": ("on one thread every task is undeferred (if(0))", ""),
    "mutexinoutset": ("mutexinoutset", ""),
    "all memory": ("dependence on all memory, left out", ""),
    "unknown item": ("depend item of an unknown type, written as inout", ""),
    "items left out": ("depend item beyond the 65,536th of its task, left out", ""),
    "between turns": ("dependence between iterations of a loop (ordered), left out",
                      "since waiting for other iterations counts as code"),
    "wait for a turn": ("wait for another iteration of a loop, whose beginning is not reported: estimated",
                        ""),
    "detach": ("detach, written as complete where the code ends", ""),
    "unseen detach": ("detach of gcc's code, which LLVM's runtime does not see", "and the program may crash"),
    "unseen target": ("target of gcc's code, which its own runtime runs next to LLVM's",
                      "and with nowait or depend the program's results may be wrong"),
    "unseen runtime": ("regions on a second libgomp in the process, not recorded", ""),
    "cancellation": ("cancellation, left out", "as another run may cancel sooner or later"),
    "target": ("target task, left out", ""),
    "region in a task": ("parallel region inside a task, whose time counts there", ""),
    "region beyond its task": ("parallel region inside a task, whose other threads ran longer than the task", ""),
    "ended inside": ("the program ended inside the region", ""),
    "records full": ("the records were full inside the region", ""),
    "unfinished task": ("task that did not end", ""),
    "told late": ("untied task whose end was reported late", ""),
    "told elsewhere": ("untied task whose end another thread reported", ""),
    "parts left out": ("parts without tasks, left out", ""),
    "equal turns": ("chunk of several iterations or sections, written as equal pieces", ""),
    "turns together": ("chunk with more iterations than pieces", ""),
    "other thread": ("thread that the program made itself, parallel to the first one from its beginning", ""),
    "held lock": ("time inside locks, whose mutual exclusion is left out", ""),
    "line of another": ("construct at the line of another, since the compiler kept none of its own",
                        "work and span are right, places are not: compile with -g -Og, or by clang with "
                        "-fno-optimize-sibling-calls"),
    "lines of gcc": ("construct in code that gcc has optimised, whose line may be that of a statement before it",
                     "work and span are right, places may not be: compile with -g -Og"),
    "preempted": ("preempted in code, counted as wall time", ""),
    "slept": ("blocked in code, not counted as processor time", ""),
    "rounded down": OF_ROUNDING,
    "rounded up": OF_ROUNDING,
}
UNFINISHED = ("unfinished task", "ended inside", "records full")
LIMITS = {"blocks": "tasks and groups inside each other", "items": "depend items of one task",
          "piece": "units of work in one piece", "work": "units of work"}
LARGER_UNIT = "choose a larger --unit"
WAYS = {"items": "give each task fewer depend items", "piece": LARGER_UNIT, "work": LARGER_UNIT}
STOPPED = {"full": "the disk was full", "numbers": "there were more tasks than numbers",
           "unwritable": "the log could not be written"}
NO_TIMES = {"unfinished": "since tasks did not run to their ends",
            "whole": "since several of its threads meet regions, or it has too many tasks and chunks"}


class Remark(str):
    """The words, and what they are made of."""
    name = ""
    work = span = ""    # how the text's differ from the program's


def effect_of(work, span):
    """`span too low`, `work too low, span too high`."""
    numbers = (("work and span", work),) if work == span else (("work", work), ("span", span))
    return ", ".join("%s %s" % (number, DIRECTIONS[moved]) for number, moved in numbers if moved)


def occurrences(reported):
    """`3 times at file.c:10`."""
    times = "%d time%s" % (reported["times"], "s" * (reported["times"] != 1))
    if "at" in reported:
        return times + " at " + reported["at"]
    return times + (", first at " + reported["first"] if "first" in reported else "")


def remark_of(reported):
    """Of an object of JSON."""
    what, more = WORDS.get(reported["remark"], (reported["remark"] + "", ""))
    work, span = reported.get("work", ""), reported.get("span", "")
    if not {work, span} <= {"", *DIRECTIONS}:
        raise ValueError("no direction")
    effect = ", ".join(filter(None, (effect_of(work, span), reported.get("more", more))))
    out = Remark(reported.get("words", what) + (", " + occurrences(reported) if "times" in reported else "")
                 + (": " + effect if effect else ""))
    out.name, out.work, out.span = reported["remark"], work, span
    return out


def read_remark(value):
    """What stands behind `# remark: `."""
    if value.startswith("{"):
        try:
            return remark_of(json.loads(value))
        except DAMAGE:
            pass
    out = Remark(value)
    out.work = out.span = "either"
    return out


def in_json(name, words, more="", **moved):
    """A remark that has words of its own."""
    return json.dumps({"remark": name, "words": words, **moved, **({"more": more} if more else {})})


def in_words(head):
    """The lines of a text's head, with what is remarked in words."""
    begin = "# remark: "
    return "".join(begin + read_remark(line[len(begin):].rstrip("\n")) + "\n" if line.startswith(begin) else line
                   for line in head.splitlines(True))


def milliseconds(nanoseconds):
    return "%.1f ms" % (nanoseconds / 1e6)


def text(line):
    """With the timed document, where it was asked for."""
    times = " and " + line["times"] if "times" in line else \
        "; no times, " + NO_TIMES[line["no times"]] if "no times" in line else ""
    return "%s%s: %d tasks, %d segments, work %d %s" % (
        line["file"], times, line["tasks"], line["segments"], line["work"], line["unit"])


def too_large(line):
    out = "%s is not written: it has %d %s, and %d is the most" % (
        line["file"], line["has"], LIMITS[line["what"]], line["takes"])
    return out + ("; " + WAYS[line["what"]] if line["what"] in WAYS else "")


def killed(line):
    where = "inside a region" if line["inside"] else "outside of regions"
    return ("the log ends %s after recording began, %s: the program was killed before its runtime shut down, or "
            "went on without it" % (milliseconds(line["recorded"]), where))


SENTENCES = {
    "text": text,
    "remark": lambda line: "%s: %s" % (line["name"], remark_of(line["remark"])),
    "too large": too_large,
    "outside": lambda line: "task outside of a parallel region, not recorded, " + occurrences(line),
    "no tasks": lambda line: "no parallel region with tasks" +
                             (", and the program ended inside a region" if line["inside"] else ""),
    "unwritten": lambda line: "%s cannot be written%s" % (line["file"], ": " + line["why"] if "why" in line else ""),
    "killed": killed,
    "running": lambda line: "the program still runs: the log is that of its first %s" % milliseconds(line["recorded"]),
    "stopped": lambda line: "%s %s after recording began, and what followed is not recorded" % (
        STOPPED[line["why"]], milliseconds(line["recorded"])),
    "fault": lambda line: "%s cannot be converted: %s" % (line.get("log", "the log"), line["what"]),
}


def sentence_of(line):
    return SENTENCES[line["message"]](line)


@dataclass
class Messages:
    """What was reported of all logs of a run; `loaded` is whether the runtime has loaded the recorder at all."""
    loaded: bool
    things: list

    def moved(self, folders):
        """The same, with the names that these folders have in the end."""
        def new(value):
            return next((end + value[len(old):] for old, end in folders.items()
                         if isinstance(value, str) and value.startswith(old)), value)
        return Messages(self.loaded, [{name: new(value) for name, value in one.items()} for one in self.things])

    def but_of(self, folders):
        """Without those of these recordings."""
        begins = tuple(folder + os.sep for folder in folders)
        return Messages(self.loaded, [one for one in self.things if not any(
            isinstance(value, str) and (value + os.sep).startswith(begins) for value in one.values())])

    @property
    def is_cut(self):
        """Whether the recorder stopped before the program did."""
        return any(one["message"] == "stopped" for one in self.things)

    def news(self, out, texts=(), remarks=()):
        """What the summary would not show, without the path of the files; two conversions may tell the same."""
        rest = [one for one in self.things if not (one["message"] == "text" and one["file"] in texts)
                and not (one["message"] == "remark" and remark_of(one["remark"]) in remarks)]
        return list(dict.fromkeys(sentence_of(one).replace(os.path.dirname(out) + os.sep, "") for one in rest))
