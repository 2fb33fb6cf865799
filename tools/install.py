#!/usr/bin/env python3
"""Puts spanprof and its tools below a prefix, or takes them away; the Makefile calls it.

    install.py install|uninstall DESTDIR PREFIX
A list of what was put there stands in PREFIX/share/spanprof, and only what it names is taken away.
"""
import glob
import os
import shutil
import sys
from contextlib import suppress

from spanprof.command import Fault, commit_of
from spanprof.checksums import SUFFIX
from spanprof.folders import other_places_of

TOOLS = os.path.dirname(os.path.abspath(__file__))
SPANPROF = os.path.join(TOOLS, "..", "crates", "spanprof", "out", "spanprof")
LARGE = os.path.join(TOOLS, "..", "crates", "spanprof_large", "out", "spanprof_large")
VERSION = "share/spanprof/VERSION"
LIBRARY, SHARED_LIBRARY = os.path.join(TOOLS, "..", "out", "library"), "libspanprof.so"
PACKAGING = os.path.join(TOOLS, "..", "packaging")
OF_CMAKE = ("spanprof-config.cmake", "spanprof-config-version.cmake")
LIST = os.path.join("share", "spanprof", "installed")
COMMANDS = ("spanprof-record", "spanprof-convert", "spanprof-report", "spanprof-path", "spanprof-whatif",
            "spanprof-predict", "spanprof-import", "spanprof-conformance")     # links to spanprof
PROGRAM, LARGE_PROGRAM = "libexec/spanprof/spanprof", "libexec/spanprof/spanprof_large"
EXECUTABLE = ("bin/", "libexec/", "lib/spanprof/convert_log", "lib/spanprof/calibrate")
SHARED = ("*.py", "spanprof/**/*.py", "spanprof/report/template/*", "conformance/*.txt",
          "conformance/directed/*.tasks", "conformance/harness/*", "conformance/mutants/*", "conformance/perturb/*")
LEFT_OUT = ("install.py", "wheel.py", "/tests/")


def programs(variables, proved=(SPANPROF, LARGE)):
    """The two to install: those that the variables name, the proved ones, or else those built without proofs."""
    named = [variables.get(name) for name in ("SPANPROF", "SPANPROF_LARGE")]
    if any(named) or os.path.isfile(proved[0]):
        return tuple(name or path for name, path in zip(named, proved))
    pairs = zip(other_places_of("spanprof"), other_places_of("spanprof_large"))
    return next((pair for pair in pairs if all(map(os.path.isfile, pair))), proved)


def shared_files():
    """What the commands need, as paths below tools/."""
    found = sorted({os.path.relpath(path, TOOLS) for pattern in SHARED
                    for path in glob.glob(os.path.join(glob.escape(TOOLS), pattern), recursive=True)})
    return [path for path in found if os.path.isfile(os.path.join(TOOLS, path))
            and not any(part in "/" + path for part in LEFT_OUT)]


def library_of(spanprof, proved=LIBRARY):
    """The folder of the library to install: the proved one, or else that of the program that is installed."""
    is_there = os.path.isfile(os.path.join(proved, SHARED_LIBRARY))
    return proved if is_there else os.path.dirname(spanprof)


def of_library(folder):
    """libspanprof for callers in C and Python, with its header and page, where it is built."""
    shared = os.path.join(folder, SHARED_LIBRARY)
    if not os.path.isfile(shared):
        return []
    return [*with_checksum(shared, "lib/libspanprof.so"), (shared, "lib/libspanprof.so.0"),
            (os.path.join(folder, "libspanprof.a"), "lib/libspanprof.a"),
            (os.path.join(TOOLS, "..", "include", "spanprof.h"), "include/spanprof.h"),
            (os.path.join(PACKAGING, "spanprof.pc"), "lib/pkgconfig/spanprof.pc"),
            *((os.path.join(PACKAGING, name), "lib/cmake/spanprof/" + name) for name in OF_CMAKE),
            (os.path.join(TOOLS, "man", "spanprof.3"), "share/man/man3/spanprof.3")]


def with_checksum(program, path):
    """A program, and the checksum that stands beside it where it was proved."""
    pairs = [(program, path), (program + SUFFIX, path + SUFFIX)]
    return pairs if os.path.isfile(program + SUFFIX) else pairs[:1]


def plan(spanprof=SPANPROF, large=LARGE, library=LIBRARY):
    """Where each file goes: pairs of a file and its path below the prefix. spanprof_large and the library are installed
    if they are built. What users call is a script; it calls the programs."""
    pairs = [(os.path.join(TOOLS, "bin", "spanprof"), "bin/spanprof"), *with_checksum(spanprof, PROGRAM)]
    pairs += of_library(library)
    if os.path.isfile(large):
        pairs += [*with_checksum(large, LARGE_PROGRAM),
                  (os.path.join(TOOLS, "completion", "spanprof.bash"),
                   "share/bash-completion/completions/spanprof_large"),
                  (os.path.join(TOOLS, "man", "spanprof.1"), "share/man/man1/spanprof_large.1"),
                  (os.path.join(TOOLS, "man", "spanprof-account.1"), "share/man/man1/spanprof-account.1")]
    pairs += [(os.path.join(TOOLS, "openmp_recorder", "librecorder.so"), "lib/spanprof/librecorder.so"),
              (os.path.join(TOOLS, "openmp_recorder", "convert_log"), "lib/spanprof/convert_log"),
              (os.path.join(TOOLS, "openmp_recorder", "calibrate"), "lib/spanprof/calibrate")]
    pairs += [(os.path.join(TOOLS, path), "share/spanprof/" + path) for path in shared_files()]
    for name in ("spanprof",) + COMMANDS:
        pairs += [(os.path.join(TOOLS, "man", name + ".1"), "share/man/man1/%s.1" % name),
                  (os.path.join(TOOLS, "completion", "spanprof.bash"), "share/bash-completion/completions/" + name)]
    return pairs + [(os.path.join(TOOLS, "completion", "_spanprof"), "share/zsh/site-functions/_spanprof"),
                    (os.path.join(TOOLS, "..", "VERSION"), VERSION)]


def links(large=LARGE):
    """The other names: pairs of what a link names and its path below the prefix."""
    of_large = [(os.path.join("..", LARGE_PROGRAM), "bin/spanprof_large")] if os.path.isfile(large) else []
    return [("spanprof", "bin/" + name) for name in COMMANDS] + of_large


def mode(path):
    return 0o755 if path.startswith(EXECUTABLE) and not path.endswith(SUFFIX) else 0o644


def make_folders(root, path, made):
    """Makes the folders that are missing above a file, and notes them."""
    missing, folder = [], os.path.dirname(path)
    while folder and not os.path.isdir(os.path.join(root, folder)):
        missing.append(folder)
        folder = os.path.dirname(folder)
    for folder in reversed(missing):
        os.mkdir(os.path.join(root, folder), 0o755)
        made.append(folder + "/")


def check_sources(pairs):
    for source, path in pairs:
        if not os.path.isfile(source):
            shown = os.path.relpath(source, os.path.join(TOOLS, ".."))
            raise Fault("%s: no such %s" % (shown, "program; ./demo builds one, and tools/prove_program.sh a proved one"
                                            if path == PROGRAM else "file"))


def install(root, pairs, named=()):
    """Puts the files there, and the links."""
    check_sources(pairs)
    uninstall(root)
    made = [] if os.path.isdir(root) else ["./"]
    os.makedirs(root, exist_ok=True)
    places = [path for _, path in pairs] + [path for _, path in named] + [LIST]
    for path in places:
        make_folders(root, path, made)
    with open(os.path.join(root, LIST), "w", encoding="utf-8") as file:
        file.write("\n".join(made + places) + "\n")
    for source, path in pairs:
        shutil.copyfile(source, os.path.join(root, path))
        os.chmod(os.path.join(root, path), mode(path))
        if path == VERSION:
            add_commit(os.path.join(root, path), commit_of(TOOLS))
    for target, path in named:
        os.symlink(target, os.path.join(root, path))
    print("%d files below %s" % (len(places), root))


def add_commit(path, commit):
    if commit:
        with open(path, "a", encoding="utf-8") as file:
            file.write("commit %s\n" % commit)


def uninstall(root):
    """Takes away the listed files, and the folders that were made for them where nothing else is in them."""
    try:
        with open(os.path.join(root, LIST), encoding="utf-8") as file:
            listed = file.read().split("\n")[:-1]
    except FileNotFoundError:
        return 0
    files = [path for path in listed if not path.endswith("/")]
    for path in files:
        if os.path.lexists(os.path.join(root, path)):
            os.remove(os.path.join(root, path))
    for folder in reversed([path for path in listed if path.endswith("/")]):
        with suppress(OSError):     # where somebody else's file is in it
            os.rmdir(os.path.normpath(os.path.join(root, folder)))
    return len(files)


def main():
    if len(sys.argv) != 4 or sys.argv[1] not in ("install", "uninstall"):
        sys.exit(__doc__)
    command, destination, prefix = sys.argv[1:]
    if not os.path.isabs(prefix):
        sys.exit("install: PREFIX is a whole path, such as /usr/local, and not '%s'" % prefix)
    root = destination + os.path.normpath(prefix)
    try:
        if command == "install":
            spanprof, large = programs(os.environ)
            install(root, plan(spanprof, large, library_of(spanprof)), links(large))
        else:
            print("%d files taken from %s" % (uninstall(root), root))
    except Fault as fault:
        sys.exit("install: %s" % fault)
    except OSError as wrong:
        sys.exit("install: %s: %s" % (wrong.filename, wrong.strerror))


if __name__ == "__main__":
    main()
