#!/usr/bin/env python3
"""Compares tools/bin/spanprof with the program that it calls: for each of the ten commands, and for wrong words, on a
file, a pipe and an input that is too long, the same bytes on standard output, the same exit status, and as much of
standard input left for others. What an error means stands on standard error, where the program is silent.

    one_command.py [PROGRAM]      crates/spanprof/out/spanprof without it
"""
import os
import subprocess
import sys
import tempfile

TOP = os.path.dirname(os.path.dirname(os.path.dirname(os.path.abspath(__file__))))
FRONT = os.path.join(TOP, "tools", "bin", "spanprof")
LARGEST_INPUT = 8388608
COMMANDS = ("", "span", "show", "slack", "greedy --threads 2", "curve --upto 3", "whatif 1=9 2=0", "certify", "check",
            "run --workers 2", "replay")
REFUSED = ("greedy --threads 0", "curve --upto 5000", "run --workers 65", "whatif 99999=1", "whatif 1=2000000000000000")
WRONG = ("slak", "span 1", "greedy", "greedy 4", "greedy --upto 4", "whatif", "whatif 1:9", "curve --upto -1", "Show",
         "run --workers", "show show", r"$(printf 'sp\377an')")
OTHER_SPELLINGS = ("curve --upto=3", "span --", "greedy --threads=2")


def texts():
    """Inputs of each kind, by their names."""
    with open(os.path.join(TOP, "examples", "worked.tasks"), "rb") as file:
        worked = file.read()
    events = b"".join(b"start 0 %d finish 0 %d\n" % (s, s) for s in range(4))
    return {"program": worked, "empty": b"", "fault": b"omptasks 1\ntasks { }\n", "open": b"omptasks 1 task {",
            "bytes": b"omptasks 1\n\xff\0\n", "loops": b"omptasks 2\nfor i 1 3 { task { work 2 } }\n",
            "many": b"omptasks 1\n" + b"task { }\n" * 4097, "replay": worked + b"---\n" + events,
            "refused": worked + b"---\nstart 0 3\n", "long": b"#" * (LARGEST_INPUT + 70000)}


def ends(program, words, path, by_pipe):
    """The exit status, standard output, what is left of standard input, and standard error."""
    left = "; status=$?; cat > %s; exit $status" % (path + ".left")
    command = "%s %s%s" % (program, words, left)
    start = ("cat %s | { %s; }" if by_pipe else "{ %s; } < %s") % ((path, command) if by_pipe else (command, path))
    done = subprocess.run(["sh", "-c", start], capture_output=True, check=False)
    with open(path + ".left", "rb") as file:
        return done.returncode, done.stdout, file.read(), done.stderr


def asked_of(name):
    """The words that are tried with an input of this name."""
    every = {"program": COMMANDS + REFUSED + WRONG + OTHER_SPELLINGS, "long": COMMANDS[:3] + WRONG[:2]}
    return every.get(name, COMMANDS)


def differences(program, folder):
    for name, data in texts().items():
        path = os.path.join(folder, name)
        with open(path, "wb") as file:
            file.write(data)
        for words in asked_of(name):
            for by_pipe in (False, True):
                alone, through = (ends(one, words, path, by_pipe) for one in (program, FRONT))
                what = "`%s` of %s by a %s" % (words, name, "pipe" if by_pipe else "file")
                if words in WRONG and alone[:2] != (2, b"error: wrong words\n"):
                    yield "%s: status %d and %r" % (what, *alone[:2])
                if alone[:3] != through[:3]:
                    yield "%s: status %d, %d bytes and %d left; through the script %d, %d and %d" % (
                        what, alone[0], len(alone[1]), len(alone[2]), through[0], len(through[1]), len(through[2]))
                if b"Traceback" in through[3] or bool(through[3]) != bool(through[0]) and not is_reported(alone[1]):
                    yield "%s: standard error has %r" % (what, through[3][:200])


def is_reported(line):
    """Whether the line itself says all, as the verdict on a certificate does."""
    return line.startswith((b"error: Broken", b"error: WrongCount", b"error: End", b"error: Chain"))


def main():
    program = os.path.realpath(sys.argv[1] if len(sys.argv) > 1 else os.path.join(TOP, "crates/spanprof/out/spanprof"))
    os.environ["SPANPROF"] = program
    with tempfile.TemporaryDirectory() as folder:
        wrong = list(differences(program, folder))
    print("\n".join(wrong + ["%d wrong" % len(wrong)]))
    sys.exit(bool(wrong))


if __name__ == "__main__":
    main()
