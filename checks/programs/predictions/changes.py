"""Changes that were made to programs, each with what is asked of spanprof-whatif."""
import pathlib
import sys
from typing import NamedTuple, Tuple

sys.path.insert(0, str(pathlib.Path(__file__).resolve().parent.parent / "whatif"))

from programs import PROGRAMS, TUTORIAL


class Made(NamedTuple):
    """`changes` are pairs of an option and its word. A grain is given as a part of the largest piece of code there."""
    name: str
    changes: Tuple[Tuple[str, str], ...]


GRAIN = "grain"
LATER = ("neighbours", "rename")   # not in the measurements that are kept
# As these programs are compiled here, its code has another place.
OTHER_PLACES = {"own_task": (("task", "after taskwait at own_task.c"),)}


MADE = (
    *(Made(one.name, OTHER_PLACES.get(one.name, one.changes)) for one in PROGRAMS if one.name not in LATER),
    *(Made(one.name, one.changes) for one in TUTORIAL),
    Made("fib", (("cutoff", "6"),)),
    Made("fine_tree", (("join", "task at fine_tree.c=2"),)),
    Made("matmul", (("split", "task at matmul.c=4"),)),
    Made("nqueens", (("cutoff", "2"),)),
    Made("uts", (("cutoff", "5"),)),
    Made("triad", (("join", "task at triad.c=8"),)),
    Made("sparse_lu", (("factor", "task at sparse_lu.c:55=0.5"),)),
)
# Those of which gcc makes no other code than clang: on one thread they take as long, to a hundredth of a second.
SAME_CODE = ("cutoff", "wait", "depend", "join", "wavefront", "fine_tree", "nqueens", "uts")
