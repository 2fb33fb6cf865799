#!/usr/bin/env python3
"""Proves the crate of a static library and builds it, over the libraries that the gate, or `rt lib`, has left in
crates/*/out. What is missing there, or older than its sources, `rt lib` proves and builds first.

    static_library.py CRATE ARCHIVE [MODULE]    with MODULE it also keeps the LLVM module that clang compiles
The last line of the proof is printed. `rt lib` knows nothing of what the gate leaves, and would prove all of it again.
"""
import os
import re
import shutil
import subprocess
import sys
import tempfile

TOP = os.path.dirname(os.path.dirname(os.path.abspath(__file__)))
PARTS = ("src", "specs", "proofs")
MOST_JOBS = 4


class NotBuilt(Exception):
    """Why there is no library."""


def listed(text):
    """The crates of crates.txt, each with the names of those that it stands on."""
    rows = (line.partition("#")[0].partition(":") for line in text.splitlines())
    return {head.split()[0]: names.split() for head, _, names in rows if head.split()}


def below(crates, name):
    """The crates below one, each behind those that it stands on."""
    found = []
    for one in crates[name]:
        if one in crates:
            found += [it for it in below(crates, one) + [one] if it not in found]
    return found


def newest(folder):
    """When a source of a crate was last changed."""
    files = (os.path.join(at, name) for part in PARTS for at, _, names in os.walk(os.path.join(folder, part))
             for name in names)
    return max((os.stat(file).st_mtime for file in files), default=0)


def built_of(top, name):
    return os.path.join(top, "crates", name, "out", "rlib", name + ".rlib")


def is_left(top, crates, name):
    """Whether a library of the crate stands there that is newer than its sources and those below."""
    built = built_of(top, name)
    if not os.path.isfile(os.path.join(built, "format")):
        return False
    # The gate may take the files from what it kept earlier; the folder it makes.
    changed = max(newest(os.path.join(top, "crates", one)) for one in below(crates, name) + [name])
    return os.stat(built).st_mtime >= changed


def words_of(top, kit, crates, name):
    """The words of `rattle build` that say what the crate is and what it stands on."""
    words = ["--crate-name", name, "src/lib.rt", "--crate-type", "staticlib", "-L", "dependency=%s/rlibs" % kit,
             "--antt-project", kit + "/rattle/logic/antt-project.json", "--logic-built", kit + "/logic_built"]
    for one in ["std"] + crates[name]:
        place = built_of(top, one) if one in crates else "%s/rlibs/%s.rlib" % (kit, one)
        words += ["--extern", "%s=%s" % (one, place)]
    for one in below(crates, name):
        words += ["-L", "dependency=" + os.path.dirname(built_of(top, one))]
    if os.path.isdir(os.path.join(top, "crates", name, "out", "incremental")):  # what `rt check` has kept
        words += ["--incremental", "out/incremental"]
    return words


def keeping(toolchain, folder, module):
    """A copy of the toolchain, by links, whose clang also keeps the module that it is given."""
    own = os.path.join(folder, "toolchain")
    shutil.copytree(toolchain, own, copy_function=os.symlink)
    clang = os.path.join(own, "bin", "clang")
    os.remove(clang)
    with open(clang, "w", encoding="utf-8") as file:
        file.write('#!/bin/sh\n[ ! -f module.bc ] || cp module.bc "%s"\nexec "%s/bin/clang" "$@"\n'
                   % (module, toolchain))
    os.chmod(clang, 0o755)
    return own


def run(words, folder):
    """What a command prints on both streams; an end with another status than 0 is an error."""
    ran = subprocess.run(words, cwd=folder, stdin=subprocess.DEVNULL, stdout=subprocess.PIPE, stderr=subprocess.STDOUT,
                         text=True, errors="replace", check=False)
    if ran.returncode:
        raise NotBuilt("%s in %s: status %d\n%s" % (" ".join(words[:2]), folder, ran.returncode, ran.stdout[-4000:]))
    return ran.stdout


def build(kit, name, archive, module):
    """Builds the archive; the last line of its proof."""
    with open(os.path.join(TOP, "crates.txt"), encoding="utf-8") as file:
        crates = listed(file.read())
    for one in below(crates, name):
        if not is_left(TOP, crates, one):
            run(["rt", "lib"], os.path.join(TOP, "crates", one))
    folder = os.path.join(TOP, "crates", name)
    os.makedirs(os.path.dirname(archive), exist_ok=True)
    with tempfile.TemporaryDirectory() as scratch:
        toolchain = keeping(kit + "/toolchain", scratch, module) if module else kit + "/toolchain"
        jobs = min(MOST_JOBS, len(os.sched_getaffinity(0)))
        reported = run([kit + "/bin/rattle", "build", *words_of(TOP, kit, crates, name), "--jobs", str(jobs),
                        "--toolchain",
                        toolchain, "--backend", "llvm", "-o", archive], folder)
    proved = re.findall(r"^logic=proved .*", reported, re.M)
    if not proved or (module and not os.path.isfile(module)):
        raise NotBuilt("it is not proved, or its module was not kept:\n" + reported[-4000:])
    return proved[-1]


def main(name, archive, module=None):
    rt = shutil.which("rt")
    try:
        if not rt:
            raise NotBuilt("there is no rt")
        kit = os.path.dirname(os.path.dirname(os.path.realpath(rt)))
        print(build(kit, name, os.path.abspath(archive), module and os.path.abspath(module)))
    except (NotBuilt, OSError) as error:
        sys.exit("static_library.py: %s" % error)


if __name__ == "__main__":
    if len(sys.argv) not in (3, 4):
        sys.exit(__doc__)
    main(*sys.argv[1:])
