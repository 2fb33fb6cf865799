#!/usr/bin/env python3
"""Compares docs/crates.svg with crates.txt: which crate stands on which, without what follows from other edges.

    checks/sources/crate_picture.py            fails where the picture was made from other crates
    checks/sources/crate_picture.py --write    makes it anew (Graphviz)
    checks/sources/crate_picture.py --dot      prints what Graphviz draws
Crates of tests are left out.
"""
import hashlib
import pathlib
import re
import subprocess
import sys

TOP = pathlib.Path(__file__).resolve().parents[2]
PICTURE = TOP / "docs" / "crates.svg"
LEFT_OUT = re.compile(r"_tests$|^(refused_growths|limit_tests|calling)$")
LAYERS = (  # from the texts up to the programs; each crate has to stand in one
    ("texts and programs", "#e3eefb", ("program_text", "loop_text", "task_program", "large_text", "time_text")),
    ("segments and what waits for what", "#e5f5e3",
     ("task_segments", "online_span", "depend_table", "open_segments", "relaxations")),
    ("runs and graphs", "#fdf1d8", ("dispatch_core", "worker_run", "exclusive_tasks")),
    ("questions about a graph", "#f6e6f7",
     ("span_analysis", "greedy_sim", "time_accounts", "whatif_costs", "span_cert")),
    ("words, devices, tables", "#eeeeee", ("counted_io", "command_words", "csv_table")),
    ("programs, a library for C", "#fbe3e0", ("spanprof_command", "large_documents", "large_command", "spanprof",
                                              "spanprof_large", "spanprof_c", "spanprof_exclusion")))


def read_crates(text):
    """For each crate of the repository those of its own crates that it names, without those left out."""
    lines = [line.partition("#")[0].partition(":") for line in text.splitlines()]
    named = {head.split()[0]: below.split() for head, _, below in lines if head.strip()}
    kept = {name for name in named if not LEFT_OUT.search(name)}
    return {name: {one for one in named[name] if one in kept} for name in named if name in kept}


def reachable(below, name):
    """What a crate stands on, through others too."""
    found, waiting = set(), list(below[name])
    while waiting:
        one = waiting.pop()
        if one not in found:
            found.add(one)
            waiting += below[one]
    return found


def reduced(below):
    """The same crates with the edges alone that no other chain of edges joins."""
    return {name: {one for one in direct if not any(one in reachable(below, other) for other in direct - {one})}
            for name, direct in below.items()}


def dot(below):
    """What Graphviz draws. Raises ValueError where a crate has no layer."""
    layer = {name: place for place, (_, _, names) in enumerate(LAYERS) for name in names}
    if set(layer) != set(below):
        raise ValueError("crates without a layer, or layers without their crate: "
                         + ", ".join(sorted(set(layer) ^ set(below))))
    lines = ["digraph crates {", "  rankdir=BT; nodesep=0.25; ranksep=0.35;",
             '  node [shape=box, style="filled,rounded", fontname="Helvetica", fontsize=12, height=0.3];',
             '  edge [arrowsize=0.6, color="#555555"];']
    lines += ['  %s [fillcolor="%s"];' % (name, LAYERS[layer[name]][1]) for name in sorted(below)]
    for title, color, _ in LAYERS:
        lines.append('  "%s" [shape=plaintext, style=filled, fillcolor="%s", fontsize=11];' % (title, color))
    lines += ['  "%s" -> "%s" [style=invis];' % (low, high) for (low, _, _), (high, _, _) in zip(LAYERS, LAYERS[1:])]
    lines += ["  %s -> %s;" % (low, name) for name in sorted(below) for low in sorted(reduced(below)[name])]
    return "\n".join(lines + ["}"]) + "\n"


def mark(text):
    return "<!-- made by checks/sources/crate_picture.py of %s -->" % hashlib.sha256(text.encode()).hexdigest()


def draw(text):
    drawn = subprocess.run(["dot", "-Tsvg"], input=text, capture_output=True, text=True, check=True).stdout
    return drawn.replace("<svg ", mark(text) + "\n<svg ", 1)


def main(words):
    text = dot(reduced(read_crates((TOP / "crates.txt").read_text(encoding="utf-8"))))
    if words == ["--dot"]:
        print(text, end="")
    elif words == ["--write"]:
        PICTURE.write_text(draw(text), encoding="utf-8")
    elif not PICTURE.exists() or mark(text) not in PICTURE.read_text(encoding="utf-8"):
        sys.exit("docs/crates.svg is not that of crates.txt: checks/sources/crate_picture.py --write")
    else:
        print("docs/crates.svg is that of crates.txt")


if __name__ == "__main__":
    main(sys.argv[1:])
