#!/usr/bin/env python3
"""Writes program texts of known kernels, to see what a size, a cutoff or a leaf does before there is a program.

    make_kernels.py KERNEL [NUMBER ..] > KERNEL.tasks

    fibonacci [N] [CUTOFF]       two calls each, as tasks; those of fib(CUTOFF) and below have if(0)
    n_queens [N] [ROWS]          a task for each safe square; those below the first ROWS rows have if(0)
    merge_sort [N] [LEAF]        four quarters as tasks, then merges that are split in two down to 2 LEAF
    strassen [N] [LEAF]          seven products of half the size, each a task
    sparse_lu [BLOCKS]           LU factors of a matrix of blocks, some of them empty, ordered by depend
    matrix_product [BLOCKS]      products of blocks, ordered by depend
    pipeline [PARTS]             parts that go through four stages, the first and the last in order
    stencil [STEPS] [CELLS]      steps in time, each cell after its neighbours
The texts beside this file are fibonacci, matrix_product, pipeline and stencil without numbers, under heads by hand.
"""
import inspect
import sys


def fibonacci(n=7, cutoff=-1):
    def body(n, indent):
        yield indent + "work 1"
        if n < 2:
            return
        for m in (n - 1, n - 2):
            yield from task(m, indent)
        yield indent + "taskwait"
        yield indent + "work 1"

    def task(n, indent):
        clause = "if(0) " if n <= cutoff else ""
        if n < 2:
            yield "%stask %s{ work 1 }  # fib(%d)" % (indent, clause, n)
            return
        yield "%stask %s{  # fib(%d)" % (indent, clause, n)
        yield from body(n, indent + "  ")
        yield indent + "}"

    yield "omptasks 1  # fib(%d)" % n
    yield from body(n, "")


def n_queens(n=6, rows=3):
    def place(queens, indent):
        row = len(queens)
        yield "%swork %d" % (indent, 1 + n * row)
        if row == n:
            return
        for q in range(n):
            if all(q != p and abs(q - p) != row - r for r, p in enumerate(queens)):
                yield "%stask%s {" % (indent, "" if row < rows else " if(0)")
                yield from place(queens + [q], indent + "  ")
                yield indent + "}"
        yield indent + "taskwait"

    yield "omptasks 1"
    yield from place([], "")


def merge_sort(n=4096, leaf=128):
    def tasks(count, body, indent):
        for _ in range(count):
            yield indent + "task {"
            yield from body(indent + "  ")
            yield indent + "}"
        yield indent + "taskwait"

    def merge(n, indent):
        if n <= 2 * leaf:
            yield "%swork %d  # merge" % (indent, n)
            return
        yield "%swork %d  # the middle is searched" % (indent, n.bit_length())
        yield from tasks(2, lambda inner: merge(n // 2, inner), indent)

    def sort(n, indent):
        if n <= leaf:
            yield "%swork %d  # sort" % (indent, n * n.bit_length())
            return
        yield from tasks(4, lambda inner: sort(n // 4, inner), indent)
        yield from tasks(2, lambda inner: merge(n // 2, inner), indent)
        yield from merge(n, indent)

    yield "omptasks 1"
    yield from sort(n, "")


def strassen(n=256, leaf=64):
    def multiply(n, indent):
        if n <= leaf:
            yield "%swork %d  # plain product" % (indent, n ** 3 // 1000)
            return
        for _ in range(7):
            yield indent + "task {"
            yield "  %swork %d  # sums of blocks" % (indent, n * n // 2000)
            yield from multiply(n // 2, indent + "  ")
            yield indent + "}"
        yield indent + "taskwait"
        yield "%swork %d  # sums of products" % (indent, n * n // 500)

    yield "omptasks 1"
    yield from multiply(n, "")


def sparse_lu(blocks=8):
    numbers = range(1, blocks + 1)
    full = {(i, j) for i in numbers for j in numbers if abs(i - j) < 2 or i * j % 3 == 1}
    yield "omptasks 1"
    for k in numbers:
        yield "task depend(inout: a%d_%d) { work 8 }  # factor" % (k, k)
        later = range(k + 1, blocks + 1)
        row, column = [j for j in later if (k, j) in full], [i for i in later if (i, k) in full]
        for j in row:
            yield "task depend(in: a%d_%d) depend(inout: a%d_%d) { work 6 }  # solve row" % (k, k, k, j)
        for i in column:
            yield "task depend(in: a%d_%d) depend(inout: a%d_%d) { work 6 }  # solve column" % (k, k, i, k)
        for i in column:
            for j in row:
                full.add((i, j))
                names = (i, k, k, j, i, j)
                yield "task depend(in: a%d_%d, a%d_%d) depend(inout: a%d_%d) { work 12 }  # update" % names
    yield "taskwait"


def matrix_product(blocks=3):
    numbers = range(1, blocks + 1)

    def name(matrix, i, j):
        return "%s%d%s%d" % (matrix, i, "" if blocks < 10 else "_", j)

    yield "omptasks 1"
    yield "work 1  # the blocks of c are set to zero"
    for matrix in "ab":
        yield ""
        for i in numbers:
            for j in numbers:
                yield "task depend(out: %s) { work 2 }" % name(matrix, i, j)
    for k in numbers:
        yield ""
        yield "# step %d: c[i][j] += a[i][%d] * b[%d][j]" % (k, k, k)
        for i in numbers:
            for j in numbers:
                a, b, c = name("a", i, k), name("b", k, j), name("c", i, j)
                yield "task depend(in: %s, %s) depend(inout: %s) { work %d }" % (a, b, c, 9 if i == k else 3)
    yield ""
    yield "taskwait"
    yield "work 1  # c is handed on"


def pipeline(parts=10):
    yield "omptasks 1"
    for part in range(1, parts + 1):
        yield ""
        yield "# part %d" % part
        yield "task depend(out: part%d) depend(inout: input) { work 2 }  # read" % part
        yield "task depend(inout: part%d) { work 7 }  # unpack" % part
        yield "task depend(inout: part%d) { work 5 }  # check" % part
        yield "task depend(in: part%d) depend(inout: output) { work 3 }  # write" % part
    yield ""
    yield "taskwait"
    yield "work 1"


def stencil(steps=8, cells=8):
    yield "omptasks 1"
    yield "work 1"
    for step in range(1, steps + 1):
        old, new = ("u", "v") if step % 2 else ("v", "u")
        costly = 1 if step % 2 else cells // 2 + 1
        yield ""
        yield "# step %d: from %s to %s" % (step, old, new)
        for cell in range(1, cells + 1):
            near = ", ".join("%s%d" % (old, c) for c in (cell - 1, cell, cell + 1) if 1 <= c <= cells)
            cost = 9 if cell == costly else 2
            yield "task depend(in: %s) depend(out: %s%d) { work %d }" % (near, new, cell, cost)
    yield ""
    yield "taskwait"
    yield "work 1"


KERNELS = {kernel.__name__: kernel for kernel in (
    fibonacci, n_queens, merge_sort, strassen, sparse_lu, matrix_product, pipeline, stencil)}


def main():
    words = sys.argv[1:]
    if words[:1] in (["-h"], ["--help"]):
        print(__doc__.strip())
        return
    if not words or words[0] not in KERNELS or not all(word.isdigit() for word in words[1:]):
        sys.exit(__doc__)
    kernel = KERNELS[words[0]]
    if len(words) - 1 > len(inspect.signature(kernel).parameters):
        sys.exit(__doc__)
    print("# make_kernels.py %s" % " ".join(words))
    for line in kernel(*map(int, words[1:])):
        print(line)


if __name__ == "__main__":
    main()
