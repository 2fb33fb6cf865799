#!/usr/bin/env python3
"""Finds Python modules of tools, checks, bench and examples that import each other in a circle, or what is not there.

    checks/sources/imports.py
A name is looked for beside the module that imports it, in the folders above that one, and in tools/. Imports inside
functions count as those at the top do.
"""
import ast
import sys
from functools import lru_cache

from style import TOP, files

PACKAGES = TOP / "tools"


def named(tree):
    """The dotted names that a module may mean by its imports; of `from a import b` first `a.b` and then `a`."""
    for node in ast.walk(tree):
        if isinstance(node, ast.Import):
            yield from ([alias.name] for alias in node.names)
        elif isinstance(node, ast.ImportFrom) and node.module and not node.level:
            yield from (["%s.%s" % (node.module, alias.name), node.module] for alias in node.names)


@lru_cache(maxsize=None)
def folders_for(folder):
    """Those in which modules of a folder look for others."""
    return [one for one in (folder, *folder.parents) if one == TOP or TOP in one.parents] + [PACKAGES]


def file_of(name, path, known):
    """The file that this name means in the module `path`, if it is one of the known ones."""
    for folder in folders_for(path.parent):
        found = folder.joinpath(*name.split(".")).with_suffix(".py")
        if found in known:
            return found
    return None


def imports_of(path, tree, known):
    found = (next(filter(None, (file_of(name, path, known) for name in names)), None) for names in named(tree))
    return {one for one in found if one not in (None, path)}


def defined(tree):
    """All names that a module defines, at its top or deeper."""
    for node in ast.walk(tree):
        if isinstance(node, (ast.FunctionDef, ast.ClassDef)):
            yield node.name
        elif isinstance(node, ast.Name) and isinstance(node.ctx, ast.Store):
            yield node.id
        elif isinstance(node, ast.alias):
            yield node.asname or node.name


def missing(path, tree, names):
    """What a module imports by `from` from another one that has no such name."""
    for node in ast.walk(tree):
        if isinstance(node, ast.ImportFrom) and node.module and not node.level:
            known = names.get(file_of(node.module, path, names))
            yield from ("%s.%s" % (node.module, alias.name) for alias in node.names
                        if known and alias.name not in known)


def circle(imports):
    """A list of modules each of which imports the next one, and the last one the first; empty where there is none."""
    done = set()
    for first in imports:
        way, left = [first], [iter(sorted(imports[first]))]
        while way:
            following = next((one for one in left[-1] if one not in done), None)
            if following is None:
                done.add(way.pop())
                left.pop()
            elif following in way:
                return way[way.index(following):]
            else:
                way.append(following)
                left.append(iter(sorted(imports[following])))
    return []


def main():
    trees = {path: ast.parse(path.read_text(encoding="utf-8")) for path in files()}
    names = {path: set(defined(tree)) for path, tree in trees.items()}
    found = circle({path: imports_of(path, tree, trees) for path, tree in trees.items()})
    wrong = ["a circle: " + " imports ".join(str(path.relative_to(TOP)) for path in found + found[:1])] * bool(found)
    wrong += ["%s imports %s, which is not there" % (path.relative_to(TOP), name)
              for path, tree in trees.items() for name in missing(path, tree, names)]
    print(*wrong, "%d modules, %d wrong" % (len(trees), len(wrong)), sep="\n")
    return 1 if wrong else 0


if __name__ == "__main__":
    sys.exit(main())
