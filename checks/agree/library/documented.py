#!/usr/bin/env python3
"""Compiles and runs the examples of docs/CALLING.md in C and Python, and compares what they print with what it says.

    checks/agree/library/documented.py LIBRARY FOLDER     the folder of the library, and one to work in
"""
import os
import pathlib
import re
import subprocess
import sys

TOP = pathlib.Path(__file__).resolve().parents[3]
EXAMPLE = re.compile(r"(?ms)^```(c|python)\n(.*?)^```\n\n```\n(.*?)^```")


def examples():
    """Each example's language, its code and what it prints."""
    return EXAMPLE.findall((TOP / "docs" / "CALLING.md").read_text(encoding="utf-8"))


def run(language, code, library, folder):
    """What an example prints."""
    source = pathlib.Path(folder, "example." + {"c": "c", "python": "py"}[language])
    source.write_text(code, encoding="utf-8")
    words = [sys.executable, "-B", str(source)]
    if language == "c":
        words = [str(pathlib.Path(folder, "example"))]
        subprocess.run(["cc", "-Wall", "-Wextra", "-Werror", "-I%s" % (TOP / "include"), "-o", words[0], str(source),
                        str(pathlib.Path(library, "libspanprof.a"))], check=True)
    environment = dict(os.environ, PYTHONPATH=str(TOP / "tools"),
                       SPANPROF_LIBRARY=str(pathlib.Path(library, "libspanprof.so")))
    return subprocess.run(words, cwd=TOP, env=environment, capture_output=True, text=True, check=True).stdout


def main(library, folder):
    found = examples()
    wrong = sorted({"c", "python"} - {language for language, _, _ in found})
    for language, code, said in found:
        printed = run(language, code, library, folder)
        if printed != said:
            wrong.append(language)
            print("WRONG: the example in %s prints\n%s" % (language, printed))
    print("%d examples, %d wrong" % (len(found), len(wrong)))
    return 1 if wrong else 0


if __name__ == "__main__":
    sys.exit(main(*sys.argv[1:]))
