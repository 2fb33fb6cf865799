"""Programs that nothing was fitted to: each with a change that was made to it, and on gcc's runtime (RUNTIME=gnu)
others without one. SET=shapes names a later set, with changes, for both. Whoever changes the model by what is measured
on them writes others."""
import os

from changes import GRAIN, Made

ON_GCC = os.environ.get("RUNTIME") == "gnu"
SET = os.environ.get("SET") or ("on_gcc" if ON_GCC else "")
FOLDER = os.path.join("unseen", SET)    # of their sources


def unseen(name, *changes):
    return Made(name, changes)


OF_GCC = ("alignment", "barnes_hut", "compress", "fft", "floyd", "health", "karatsuba", "lcs", "quadtree", "seidel",
          "sudoku")
OF_LLVM = (
    unseen("spmv", ("join", "task at spmv.c:46=4"), ("join", "task at spmv.c:54=4")),
    unseen("life", ("drop-wait", "taskwait at life.c")),
    unseen("alphabeta", ("cutoff", "2")),
    unseen("parse", ("split", "after taskwait at parse.c:100=8")),
    unseen("mandelbrot", ("join", "task at mandelbrot.c=6")),
    unseen("bitonic", (GRAIN, "after taskwait at bitonic.c:57=8"), (GRAIN, "task at bitonic.c:38=4"),
           (GRAIN, "task at bitonic.c:40=4")),
    unseen("kdtree", ("cutoff", "4")),
    unseen("jacobi", ("task", "after taskwait at jacobi.c")),
    unseen("knapsack", ("drop-wait", "taskgroup at knapsack.c")),
    unseen("convolution", ("drop-depend", "task at convolution.c")),
    unseen("bodies", ("split", "task at bodies.c=4")),
    unseen("hash_join", (GRAIN, "task at hash_join.c:75=4")),
    unseen("rays", ("factor", "task at rays.c=0.5")),
    unseen("tally", ("split", "task at tally.c=5")),
)
UNPACK = "task at film.c:%d" % (61 if ON_GCC else 60)   # gcc gives it the line of its statement
SHAPES = (
    unseen("qr", ("drop-wait", "taskwait at qr.c")),
    unseen("rna", ("split", "task at rna.c:68=4")),
    unseen("closest", ("cutoff", "7")),
    unseen("film", ("rename", UNPACK), ("rename", "task at film.c:62")),
    unseen("centrality", ("factor", "task at centrality.c=0.5")),
    unseen("multigrid", ("join", "task at multigrid.c=4")),
    unseen("match", ("join", "task at match.cpp=8")),
    unseen("flowshop", ("cutoff", "2")),
    unseen("forest", ("drop-wait", "taskgroup at forest.cpp:107")),
    unseen("runs", (GRAIN, "task at runs.c:90=8")),
)
SETS = {"": OF_LLVM, "on_gcc": tuple(map(unseen, OF_GCC)), "shapes": SHAPES}
UNSEEN = SETS[SET]
HAS_CHANGES = all(one.changes for one in UNSEEN)
