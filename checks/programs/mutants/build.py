#!/usr/bin/env python3
"""Builds a task runtime from its source once for each mutant of it: build.py gomp FOLDER [NAME..]

FOLDER gets NAME.so for each mutant, `none.so` for the runtime as it is, and `mutants.json`, which says what each
breaks.
"""
import argparse
import concurrent.futures
import json
import pathlib
import queue
import sys
import tempfile

from patches import NoMutant, mutants_of
from sources import FAMILIES, NoSource, archive_of, build_patched, tree_of, unpack


def resolved(word):
    return pathlib.Path(word).resolve()


def options_of(words=None):
    parser = argparse.ArgumentParser(description=__doc__.split("\n", maxsplit=1)[0])
    add = parser.add_argument
    add("family", choices=FAMILIES, help="gomp: gcc's runtime; kmp: LLVM's")
    add("folder", type=resolved, help="where the libraries go")
    add("names", nargs="*", help="these mutants alone")
    add("--patches", type=resolved, help="other mutants, such as those of operators.py")
    add("--archive", type=resolved, help="the source archive (the newest in /usr/src)")
    add("--jobs", type=int, default=2, help="how many are built side by side (2)")
    add("--flags", default="", help="more flags for the compiler, such as --coverage")
    add("--tree", type=resolved, help="build there, one after another, and keep it, as --coverage needs")
    return parser.parse_args(words)


def described(mutants):
    """What `mutants.json` says of the mutants, by name."""
    return {mutant.name: {"words": mutant.words, "rule": mutant.rule, "breaks": mutant.breaks} for mutant in mutants}


def built(options, mutants, trees):
    """Names of what was built, as it ends, and what went wrong with it. Each build has one of the trees to itself. The
    runtime as it is comes last, so that a tree that is kept is that of its library."""
    free = queue.Queue()
    for tree in trees:
        free.put(tree)

    def build(mutant):
        tree, name = free.get(), mutant.name if mutant else "none"
        try:
            build_patched(options.family, tree, mutant and mutant.path, options.folder / f"{name}.so")
            return name, ""
        except NoSource as reason:
            return name, str(reason)
        finally:
            free.put(tree)

    with concurrent.futures.ThreadPoolExecutor(len(trees)) as pool:
        futures = [pool.submit(build, mutant) for mutant in (*mutants, None)]
        for future in concurrent.futures.as_completed(futures):
            yield future.result()


def main():
    options = options_of()
    try:
        mutants = mutants_of(options.family, options.names, options.patches)
        options.folder.mkdir(parents=True, exist_ok=True)
        with tempfile.TemporaryDirectory(prefix="mutants-") as folder:
            folder = pathlib.Path(folder)
            source = unpack(options.family, archive_of(options.family, options.archive), folder)
            jobs = max(1, min(options.jobs, len(mutants) + 1))
            folders = [options.tree] if options.tree else [folder / f"tree{job}" for job in range(jobs)]
            with concurrent.futures.ThreadPoolExecutor(jobs) as pool:
                trees = list(pool.map(lambda tree: tree_of(options.family, source, tree, options.flags), folders))
            wrong = [f"{name}: {reason}" for name, reason in built(options, mutants, trees) if reason]
        (options.folder / "mutants.json").write_text(json.dumps(described(mutants), indent=1) + "\n")
    except (NoMutant, NoSource, OSError) as reason:
        print(f"build.py: {reason}", file=sys.stderr)
        return 2
    print("\n".join([*wrong, f"{len(mutants)} mutants, {len(wrong)} not built"]))
    return 1 if wrong else 0


if __name__ == "__main__":
    sys.exit(main())
