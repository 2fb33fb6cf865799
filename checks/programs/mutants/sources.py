"""How the runtimes are unpacked and built from the distribution's source packages, apart from all that is installed."""
import glob
import pathlib
import shutil
import subprocess


class NoSource(Exception):
    """A source package that is not there, or does not build."""


def run(words, folder, log):
    """Runs a command, whose output goes to a log."""
    with open(log, "ab") as out:
        done = subprocess.run([str(word) for word in words], cwd=folder, stdout=out, stderr=out, check=False)
    if done.returncode:
        last = pathlib.Path(log).read_text(errors="replace").strip().split("\n")[-3:]
        raise NoSource(f"{' '.join(map(str, words[:4]))} fails: {' / '.join(last)}")


class Gomp:
    """libgomp, of the package gcc-12-source."""
    archives = "/usr/src/gcc-*/gcc-*.tar.xz"
    needed = ("libgomp/*", "include/*", "config/*", "config*", "ltmain.sh", "libtool.m4", "lt*.m4", "install-sh",
              "missing", "compile", "depcomp", "mkinstalldirs", "multilib.am", "gcc/BASE-VER", "gcc/DEV-PHASE")
    library = "build/.libs/libgomp.so.1.0.0"

    @staticmethod
    def configure(tree, log, flags):
        (tree / "build").mkdir()
        run(["../libgomp/configure", "--disable-multilib", "--disable-werror", "--disable-static",
             f"CFLAGS=-O2 -g {flags}".strip()], tree / "build", log)

    @staticmethod
    def make(tree, log):
        run(["make", "libgomp.la"], tree / "build", log)


class Kmp:
    """libomp, of a source package llvm-toolchain-16 or -19 (`apt-get source --download-only --tar-only ..`), built by
    clang 16, or 19 where that is missing."""
    archives = "/usr/src/llvm-toolchain-*.orig.tar.xz"
    needed = ("openmp/*", "cmake/*")
    library = "build/runtime/src/libomp.so"

    @staticmethod
    def configure(tree, log, flags):
        version = "16" if shutil.which("clang-16") else "19"
        run(["cmake", "-G", "Ninja", "-S", "openmp", "-B", "build", "-DCMAKE_BUILD_TYPE=RelWithDebInfo",
             "-DOPENMP_STANDALONE_BUILD=ON", "-DOPENMP_ENABLE_LIBOMPTARGET=OFF", "-DLIBOMP_OMPD_SUPPORT=OFF",
             f"-DCMAKE_C_COMPILER=clang-{version}", f"-DCMAKE_CXX_COMPILER=clang++-{version}",
             f"-DCMAKE_CXX_FLAGS={flags}", f"-DCMAKE_SHARED_LINKER_FLAGS={flags}"], tree, log)

    @staticmethod
    def make(tree, log):
        run(["ninja", "-j2", "-C", "build", "omp"], tree, log)


FAMILIES = {"gomp": Gomp, "kmp": Kmp}


def archive_of(family, named=None):
    """The source archive that is named, or the newest that is installed."""
    found = named or max(glob.glob(FAMILIES[family].archives), default=None)
    if not found:
        raise NoSource(f"no {FAMILIES[family].archives}: {FAMILIES[family].__doc__}")
    return found


def unpack(family, archive, folder):
    """Unpacks what the runtime's build needs, into a folder `source`."""
    source = folder / "source"
    source.mkdir(parents=True)
    patterns = [f"*/{name}" for name in FAMILIES[family].needed]
    run(["tar", "-xf", archive, "-C", source, "--strip-components=1", "--no-wildcards-match-slash", "--wildcards",
         *patterns], folder, folder / "unpack.log")
    return source


def tree_of(family, source, folder, flags=""):
    """A copy of the source, configured and built."""
    shutil.copytree(source, folder, symlinks=True)
    log = folder / "build.log"
    FAMILIES[family].configure(folder, log, flags)
    FAMILIES[family].make(folder, log)
    return folder


def build_patched(family, tree, patch, target):
    """Builds the library with a patch applied, or without any; the tree is then as before."""
    log = tree / "build.log"
    if patch:
        run(["patch", "-p1", "-i", patch], tree, log)
    try:
        FAMILIES[family].make(tree, log)
        shutil.copy(tree / FAMILIES[family].library, target)
    finally:
        if patch:
            run(["patch", "-p1", "-R", "-i", patch], tree, log)
