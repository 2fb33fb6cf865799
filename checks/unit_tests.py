#!/usr/bin/env python3
"""Runs unit tests, all in one process. None needs a compiler, a runtime or spanprof.

    checks/unit_tests.py [FILE ..]      those of tools, checks and bench if none is named
A test imports from the first folder above it that is no package. Behind the tests of such a folder all modules are
forgotten, since scripts of several folders have the same names.
"""
import io
import itertools
import pathlib
import sys
import unittest

TOP = pathlib.Path(__file__).resolve().parents[1]
FOLDERS = ("tools", "checks", "bench")


def tests():
    return (path for folder in FOLDERS for path in (TOP / folder).rglob("test_*.py"))


def top_of(path):
    """The folder that the tests in a file import from."""
    return next(folder for folder in path.parents if not (folder / "__init__.py").exists())


def passes(top, paths):
    """What failed is printed."""
    sys.path.insert(0, str(top))
    names = [".".join(path.relative_to(top).with_suffix("").parts) for path in paths]
    printed = io.StringIO()
    found = unittest.TextTestRunner(printed, verbosity=0).run(unittest.defaultTestLoader.loadTestsFromNames(names))
    print("" if found.wasSuccessful() else printed.getvalue(), end="")
    return found.wasSuccessful()


def forget_modules():
    for name, module in list(sys.modules.items()):
        file = getattr(module, "__file__", None) or next(iter(getattr(module, "__path__", ())), "")
        if TOP in pathlib.Path(file).parents and name != "__main__":
            del sys.modules[name]


def main(names):
    sys.dont_write_bytecode = True
    found, path, failed = [pathlib.Path(name).resolve() for name in names] or tests(), list(sys.path), 0
    for top, paths in itertools.groupby(sorted(found, key=lambda it: (top_of(it), it)), top_of):
        failed += not passes(top, paths)
        sys.path[:] = path
        forget_modules()
    return 1 if failed else 0


if __name__ == "__main__":
    sys.exit(main(sys.argv[1:]))
