#!/usr/bin/env python3
"""Makes texts of the logs of recordings: texts.py NAME .., of NAME.spanprof and what its children left. They are
NAME.tasks and so on; what the converter is asked for stands in the environment (tools/openmp_recorder/README.md).
Prints what it says. Status 1: a log cannot be converted, or there is none.
"""
import sys

from recording import names_of, texts


def main(names):
    found = [texts(name) for name in names]
    print("".join(said for said, _ in found), end="", file=sys.stderr)
    return any(failed for _, failed in found) or not all(map(names_of, names))


if __name__ == "__main__":
    sys.exit(main(sys.argv[1:]))
