"""The program that is to be recorded, which OpenMP runtime it is linked with, as `readelf` and `ldd` list it, and the
one that it is recorded on: LLVM's loads the recorder as a tool of its interface, and before the functions of gcc's the
recorder's own stand.
"""
import glob
import os
import re
import shutil
import subprocess
from dataclasses import dataclass, field
from typing import Dict, Set

from spanprof.command import NO_PROGRAM, NOT_EXECUTABLE, Fault

GCC, LLVM = "gcc's runtime (libgomp)", "LLVM's runtime (libomp)"
NAMES = {"libgomp.so": GCC, "libomp.so": LLVM, "libomp-": LLVM, "libiomp5.so": LLVM}
SANITIZERS = ("libasan.so", "libtsan.so", "libclang_rt.asan", "libclang_rt.tsan")
ELF = b"\x7fELF"   # the first bytes of a program, or of a library
ENTRIES = {"GOMP_parallel": GCC, "GOMP_task": GCC, "__kmpc_fork_call": LLVM}
LOADS = re.compile(r"dlopen|execv|execv[ep]|execvpe|execlp?|execle|posix_spawnp?")
SYSTEM = re.compile(r"lib(c|m|dl|rt|pthread|gcc_s|stdc\+\+)\.so|ld-linux|linux-vdso")
WHERE = ("/usr/lib/llvm-*/lib/libomp.so.5", "/usr/lib/*-linux-gnu/libomp.so.5", "/usr/lib64/libomp.so",
         "/usr/local/lib/libomp.so")
PACKAGE = "LLVM's OpenMP runtime is missing (package libomp-19-dev; --runtime FILE names one that lies elsewhere)"
ON_LLVM, ON_GCC = "llvm", "gnu"   # of --runtime, where it names no file
TARGETS = {"GOMP_target_ext", "GOMP_target_update_ext", "GOMP_target_enter_exit_data"}
# What each version of gcc's runtime was the first to have, the newest first.
FIRST_OF_GCC = (("GOMP_6.0.1", "16"), ("GOMP_6.0", "15"), ("GOMP_5.1.2", "14"), ("GOMP_5.1.1", "13"),
                ("GOMP_5.1", "12"), ("GOMP_5.0.1", "11"), ("OACC_2.6", "10"), ("GOMP_5.0", "9"))
MODULE = re.compile(r"(?m)^\w+ \w+ \w+ runtime (.*)$")
WORDS = {"gnu": "gcc %s's libgomp", "llvm": "LLVM %s's libomp"}


@dataclass
class Linkage:
    """What a program is, as far as recording goes."""
    is_script: bool = False
    is_static: bool = False
    libraries: Dict[str, str] = field(default_factory=dict)  # each runtime with the path, empty where none was found
    inside: Set[str] = field(default_factory=set)            # runtimes that are linked into the program itself
    called: Set[str] = field(default_factory=set)            # what it calls of gcc's runtime
    loads: bool = False                                      # libraries or programs, which may have OpenMP in them
    is_checked: bool = False                                 # by a sanitizer's library, which has to be loaded first


def runtime_of(name):
    """The runtime that a library's file name tells."""
    return next((runtime for start, runtime in NAMES.items() if name.startswith(start)), "")


def libraries(listing):
    """Of what `ldd` prints: each library's file name with its path; empty where the loader does not find it."""
    found = {}
    for line in listing.splitlines():
        name, arrow, rest = line.strip().partition(" => ")
        path = rest if arrow else name
        found[os.path.basename(name.split(" ")[0])] = "" if path.startswith("not found") else path.rpartition(" (")[0]
    return found


def shared_runtimes(listing):
    """Each runtime of OpenMP among them, with its path."""
    return {runtime_of(name): path for name, path in libraries(listing).items() if runtime_of(name)}


def is_checked(listing):
    return any(name in listing for name in SANITIZERS)


def is_static(listing):
    return "not a dynamic executable" in listing or "statically linked" in listing


def symbols(table):
    """Of what `readelf --symbols` prints: the defined and the undefined names, without their versions."""
    defined, undefined = set(), set()
    for line in table.splitlines():
        words = line.split()
        if len(words) >= 8 and re.fullmatch(r"\d+:", words[0]):
            (undefined if words[6] == "UND" else defined).add(words[7].partition("@")[0])
    return defined, undefined


def listed(words):
    """What a tool prints, in English; nothing where there is no such tool."""
    try:
        done = subprocess.run(words, capture_output=True, text=True, errors="replace", check=False,
                              env=dict(os.environ, LC_ALL="C"))
    except OSError:
        return ""
    return done.stdout + done.stderr


def first_bytes(path):
    try:
        with open(path, "rb") as file:
            return file.read(4)
    except OSError as wrong:
        raise Fault("%s: %s" % (path, wrong.strerror)) from wrong


def loads_more(undefined, listing):
    """Whether a program calls what loads a library or another program, or one of its libraries does, as python's."""
    own = [path for name, path in libraries(listing).items() if path and not SYSTEM.match(name)]
    return any(map(LOADS.fullmatch, undefined)) or \
        any("dlopen" in symbols(listed(["readelf", "-W", "--dyn-syms", path]))[1] for path in own)


def linkage(path):
    """What the file of a program is linked with."""
    if first_bytes(path) != ELF:
        return Linkage(is_script=True)
    listing = listed(["ldd", path])
    defined, undefined = symbols(listed(["readelf", "-W", "--symbols", path]))
    inside = {runtime for name, runtime in ENTRIES.items() if name in defined}
    called = {name for name in undefined if name.startswith("GOMP_")}
    runtimes = shared_runtimes(listing)
    return Linkage(False, is_static(listing), runtimes, inside, called,
                   not runtimes and loads_more(undefined, listing), is_checked(listing))


def find(word):
    """The path of the program that a shell would run for this word."""
    path = word if os.sep in word else shutil.which(word)
    if path is None:
        here = "; %s of this folder is ./%s" % (word, word) if os.path.isfile(word) else ""
        raise Fault("%s: no such program on the PATH%s" % (word, here), NO_PROGRAM)
    if not os.path.exists(path):
        raise Fault("%s: no such program" % path, NO_PROGRAM)
    if os.path.isdir(path):
        raise Fault("%s: is a folder, not a program" % path, NOT_EXECUTABLE)
    if not os.access(path, os.X_OK):
        raise Fault("%s: not executable" % path, NOT_EXECUTABLE)
    return path


def launched(words):
    """The path of the program among a launcher's words: the first one that is linked with a runtime of OpenMP."""
    paths = [path for path in map(shutil.which, words[1:]) if path]
    if not paths:
        raise Fault("%s: none of its arguments is a program" % words[0], NO_PROGRAM)
    return next((path for path in paths if linkage(path).libraries), paths[0])


@dataclass(frozen=True)
class Chosen:
    """What is loaded before the program's own libraries."""
    preload: str = ""         # a runtime, in each run; empty where the program has its own
    in_front: bool = False    # the recorder too, in recorded runs: before gcc's runtime, and before the system's locks


def by_version(path):
    """The newest comes first."""
    version = re.search(r"llvm-(\d+)", path)
    return (-int(version[1]) if version else 0, path)


def llvm_runtime():
    found = sorted((path for pattern in WHERE for path in glob.glob(pattern)), key=by_version)
    if not found:
        raise Fault(PACKAGE)
    return found[0]


def refuse(path, linkage):
    """Ends where no recorder can be loaded into the program."""
    if linkage.is_static:
        raise Fault("%s is linked statically, and no recorder can be loaded into it; link it without -static" % path)
    if GCC in linkage.inside:
        raise Fault("%s has %s inside; link it with the shared library, or compile it with clang" % (path, GCC))
    may_load = linkage.is_script or linkage.loads     # a library with OpenMP, itself or in a program that it runs
    if not (linkage.libraries or linkage.inside or may_load):
        raise Fault("%s has no OpenMP in it: it is linked neither with %s nor with %s, and loads no other library or "
                    "program; was it compiled with -fopenmp?" % (path, GCC, LLVM))


def refuse_targets(lacking):
    """gcc's runtime waits for no task of LLVM's: a `target` with `nowait` or `depend` would begin too early."""
    found = sorted(TARGETS.intersection(lacking))
    if found:
        raise Fault("the program calls %s, which LLVM's runtime does not have, and gcc's next to it knows none of "
                    "LLVM's tasks: with nowait or depend its results may be wrong; compile it with clang (--runtime %s "
                    "runs it all the same)" % (found[0], llvm_runtime()))


def on_file(path):
    """The system would pass over another file, and the program run on its own runtime."""
    if not os.path.isfile(path):
        raise Fault("--runtime %s: no such file" % path)
    if first_bytes(path) != ELF:
        raise Fault("--runtime %s: not a shared library" % path)
    return Chosen(os.path.abspath(path), runtime_of(os.path.basename(path)) == GCC)


def choose(path, linkage, wanted=None):
    """A program runs on the runtime that it is linked with, if --runtime names no other."""
    if wanted and wanted not in (ON_LLVM, ON_GCC):
        return on_file(wanted)
    refuse(path, linkage)
    if wanted == ON_LLVM or linkage.libraries.get(LLVM) == "":
        return Chosen(llvm_runtime())
    return Chosen(in_front=bool(wanted) or GCC in linkage.libraries or not linkage.is_checked)


def what_it_lacks(library, called):
    """Those functions of gcc's runtime that a program calls and LLVM's does not have."""
    defined, _ = symbols(listed(["readelf", "-W", "--dyn-syms", library]))
    return sorted(called - defined) if defined else []


def named(library):
    if os.path.basename(library).startswith("libgomp"):
        defined, _ = symbols(listed(["readelf", "-W", "--dyn-syms", library]))
        name, version = "gnu", next((version for name, version in FIRST_OF_GCC if name in defined), None)
    else:
        found = re.search(r"(?:llvm|omp)-(\d+)", os.path.realpath(library) + "\n" + library)
        name, version = "llvm", found[1] if found else None
    return {"name": name, "library": library, "version": version}


def runtimes_in(modules):
    """Of the list of modules of a log: each runtime with its name, its version and its library."""
    return [named(library) for library in dict.fromkeys(MODULE.findall(modules))]


def in_words(runtime):
    """`gcc 12's libgomp`, or `LLVM 19's libomp`; what is not known is left out."""
    return (WORDS[runtime["name"]] % (runtime["version"] or "")).replace(" 's", "'s")


def runtimes_of(log):
    """Those of a log; none where it has none."""
    try:
        with open(os.path.join(log, "modules"), encoding="utf-8", errors="replace") as file:
            return runtimes_in(file.read())
    except OSError:
        return []


def note_of(log):
    """The sentence that names several; the diagnosis names a single one."""
    found = [in_words(it) for it in runtimes_of(log)]
    return "the program ran on two runtimes: " + " and ".join(found) if len(found) > 1 else ""
