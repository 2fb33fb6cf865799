"""The programs, each with the change that says what was rewritten."""
from typing import NamedTuple, Tuple


class Rewrite(NamedTuple):
    """`is_whole` is whether the change says all of the rewritten program's shape."""
    name: str
    rewritten: str
    changes: Tuple[Tuple[str, str], ...]
    is_whole: bool = True


def small(name, *change):
    return Rewrite(name, name + "_rewritten", (change,))


PROGRAMS = (
    small("cutoff", "cutoff", "4"),
    small("split", "split", "task at split.c=4"),
    small("wait", "drop-wait", "taskwait at wait.c"),
    small("depend", "drop-depend", "task at depend.c"),
    small("neighbours", "read-only", "task at neighbours.c:16"),
    Rewrite("rename", "rename_rewritten", (("rename", "task at rename.c:16"), ("rename", "task at rename.c:18"))),
    small("factor", "factor", "task at factor.c:17=0.5"),
    small("join", "join", "task at join.c=8"),
    small("own_task", "task", "after taskwait at own_task.c:16"),
)
MERGES = ("after taskgroup at merge_sort.c:33", "task at merge_sort.c:35", "task at merge_sort.c:37")
TUTORIAL = (
    Rewrite("wavefront", "wavefront_overlapped", (("drop-wait", "taskwait at wavefront.c:25"),)),
    # Long merges are split in halves down to 32,768 numbers: the last one has 32 times as many, the others 16 times.
    Rewrite("merge_sort", "merge_sort_split", (("grain", MERGES[0] + "=32"), ("grain", MERGES[1] + "=16"),
                                               ("grain", MERGES[2] + "=16")), is_whole=False),
)
