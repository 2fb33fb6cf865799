"""What OpenMP 5.2 says, by the rule that a failure is reported under, and whether the standard promises it."""
from typing import NamedTuple


class Rule(NamedTuple):
    words: str
    section: str  # of the OpenMP API 5.2

    def __str__(self):
        return f"{self.words} (OpenMP 5.2, {self.section})"


RULES = {
    "order": Rule("a task's own code runs in its order", "12.5"),
    "creation": Rule("a task begins after it was created (task construct)", "12.5"),
    "undeferred": Rule("a task goes on only when its undeferred child is complete (`if` and `final` clauses)",
                       "12.5 and 12.3"),
    "dependence": Rule("a task waits for earlier siblings with conflicting items (`depend` clause)", "15.9.5"),
    "taskwait": Rule("a taskwait waits for all children created so far (taskwait construct)", "15.5"),
    "taskgroup": Rule("the end of a group waits for all tasks created inside and for those below them (taskgroup "
                      "construct)", "15.4"),
    "once": Rule("a task runs once, and its code in one piece from one scheduling point to the next", "12.5 and 12.10"),
    "iterations": Rule("a taskloop runs each of its iterations once, and no other", "12.6"),
    "chunks": Rule("`grainsize` and `num_tasks` say how many tasks a taskloop has, and of how many iterations",
                   "12.6.1 and 12.6.2"),
    "reduction": Rule("a reduction leaves what all tasks have added", "5.5.8 to 5.5.10"),
    "data": Rule("a task has the values that its `firstprivate` items had at its creation", "5.4.4"),
    "memory": Rule("a task sees what those have written for which it waited", "1.4.4 and 15.8"),
    "tied": Rule("a tied task goes on on the thread that began it", "12.10"),
    "constraint": Rule("a thread begins a tied task only below each tied task that is suspended there", "12.10"),
    "exclusion": Rule("siblings with `mutexinoutset` items on one location run one at a time", "15.9.5"),
    "event": Rule("a task with `detach` is complete once its code has ended and its event is fulfilled", "12.5.2"),
    "cancel": Rule("tasks of a cancelled group that have begun end, and the others may be left out", "16.1"),
    "end": Rule("each task runs, each wait ends, and so does the program", "12.10, 15.3 to 15.5"),
    "region": Rule("the end of a region waits for all tasks of its team", "15.3.2"),
}
# By the kind of a failure, or by the words before the colon where a program sees a wrong value itself.
OF_KIND = {"moved": "tied", "unconstrained": "constraint", "overlapping": "exclusion", "chunks": "chunks",
           "incomplete": "region", "values": "memory", "refused": "once"}
OF_VALUE = {"iterations of a taskloop": "iterations", "the sum of a group": "reduction",
            "the sum of a taskloop": "reduction", "data of a task": "data"}
# Where the standard says that threads may run other tasks while they wait, and not that they have to.
MAY_RUN = ("that no thread waits for", "in a group whose end waits")
PROMISE = "a promise of the standard"
QUALITY = "a quality of the implementation: a thread that waits may run other tasks, and need not"
LIMITS = "a quality of the implementation: the standard sets no limits of memory"
LANGUAGE = "what the compiler knows of the standard"


def rule_of(kind, rule):
    """What is expected where a failure of this kind is reported under this name, as a name in RULES."""
    name = rule.partition(", of ")[0]
    return name if name in RULES else OF_VALUE.get(rule) or OF_KIND.get(kind, "end")


def at_stake(kind, rule):
    """Whether a failure breaks what the standard promises."""
    if kind == "not built":
        return LANGUAGE
    if kind == "hung" and any(words in rule for words in MAY_RUN):
        return QUALITY
    return LIMITS if "memory" in rule and rule.startswith("runaway") else PROMISE
