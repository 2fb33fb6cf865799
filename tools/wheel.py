#!/usr/bin/env python3
"""Makes a wheel of a prefix on which `make install` has put spanprof, with no other package: pip puts the same commands
below its own prefix, and the module for callers among its packages.

    tools/wheel.py PREFIX FOLDER GLIBC      GLIBC, such as 2.31, is the oldest that the programs run with
"""
import base64
import hashlib
import os
import pathlib
import re
import sys
import time
import zipfile

TOP = pathlib.Path(__file__).resolve().parents[1]
# Of spanprof/ what callers import; the commands have their own.
MODULE = ("__init__.py", "library.py", "c_calls.py", "checksums.py")
OF_C = ("include/", "lib/cmake/", "lib/pkgconfig/", "lib/libspanprof", "share/man/man3/")
EPOCH = 315532800   # 1980, the first year of a zip
EXECUTABLE, PLAIN = 0o100755, 0o100644
METADATA = """Metadata-Version: 2.1
Name: spanprof-tools
Version: %s
Summary: What costs an OpenMP program time, and what to change first
License: MIT
Requires-Python: >=3.9
Description-Content-Type: text/markdown

"""
WHEEL = "Wheel-Version: 1.0\nGenerator: spanprof\nRoot-Is-Purelib: false\nTag: %s\n"


def script(path):
    """A command: pip writes the line of its Python. What is a link to a program becomes a call of it."""
    words = path.read_bytes()
    if words.startswith(b"#!"):
        return words.replace(b"#!/usr/bin/env python3", b"#!python", 1)
    return b'#!/bin/sh\nexec "$(dirname "$0")/../%s" "$@"\n' % os.fsencode(path.resolve().relative_to(
        path.parent.parent.resolve()))


def of_prefix(prefix, data):
    """Each file with its name in the wheel."""
    for path in sorted(path for path in prefix.rglob("*") if path.is_file()):
        place = path.relative_to(prefix).as_posix()
        if place.startswith("bin/"):
            yield "%s/scripts/%s" % (data, path.name), script(path), EXECUTABLE
        elif not place.startswith(OF_C):
            is_program = os.access(path, os.X_OK)
            yield "%s/data/%s" % (data, place), path.read_bytes(), EXECUTABLE if is_program else PLAIN


def of_module(prefix):
    for name in MODULE:
        yield "spanprof/" + name, (prefix / "share/spanprof/spanprof" / name).read_bytes(), PLAIN
    for name, mode in (("libspanprof.so", EXECUTABLE), ("libspanprof.so.sha256", PLAIN)):
        if (prefix / "lib" / name).exists():
            yield "spanprof/" + name, (prefix / "lib" / name).read_bytes(), mode


def of_facts(info, version, tag):
    readme = (TOP / "README.md").read_text(encoding="utf-8")
    yield info + "/METADATA", (METADATA % version + readme).encode(), PLAIN
    yield info + "/WHEEL", (WHEEL % tag).encode(), PLAIN
    yield info + "/licenses/LICENSE", (TOP / "LICENSE").read_bytes(), PLAIN


def write(path, files, record):
    """With the time that SOURCE_DATE_EPOCH says, so that one commit makes one wheel."""
    date = time.gmtime(max(EPOCH, int(os.environ.get("SOURCE_DATE_EPOCH", EPOCH))))[:6]
    lines = ""
    for name, words, _ in files:
        digest = base64.urlsafe_b64encode(hashlib.sha256(words).digest()).rstrip(b"=").decode()
        lines += "%s,sha256=%s,%d\n" % (name, digest, len(words))
    lines += record + ",,\n"
    with zipfile.ZipFile(path, "w") as wheel:
        for name, words, mode in files + [(record, lines.encode(), PLAIN)]:
            about = zipfile.ZipInfo(name, date)
            setattr(about, "external_attr", mode << 16)
            wheel.writestr(about, words, zipfile.ZIP_DEFLATED)


def main(prefix, folder, glibc):
    prefix, version = pathlib.Path(prefix), (TOP / "VERSION").read_text(encoding="utf-8").split("\n")[0]
    stem = "spanprof_tools-" + version
    tag = "py3-none-manylinux_%s_%s" % (glibc.replace(".", "_"), os.uname().machine)
    info = stem + ".dist-info"
    files = [*of_module(prefix), *of_prefix(prefix, stem + ".data"), *of_facts(info, version, tag)]
    os.makedirs(folder, exist_ok=True)
    write(os.path.join(folder, "%s-%s.whl" % (stem, tag)), files, info + "/RECORD")


if __name__ == "__main__":
    if len(sys.argv) != 4 or not re.fullmatch(r"\d+\.\d+", sys.argv[3]):
        sys.exit(__doc__)
    main(*sys.argv[1:])
