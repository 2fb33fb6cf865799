"""Spack's recipe. Put it into packages/spanprof of a repository of Spack's, with the checksum of the released tarball."""
import os

from spack.package import *


class Spanprof(MakefilePackage):
    """Records a run of an OpenMP program, and tells what costs it time and what to change first."""

    homepage = "https://example.org/spanprof"
    url = "https://example.org/spanprof/spanprof-0.1.0.tar.gz"
    license("MIT")
    version("0.1.0", sha256="0" * 64)   # of the sources

    depends_on("c", type="build")
    depends_on("cxx", type="build")
    depends_on("rust@1.63:", type="build")
    depends_on("llvm@14: +clang", type=("build", "run"))
    depends_on("binutils", type="run")
    depends_on("python@3.9:", type=("build", "run"))

    def build(self, spec, prefix):
        Executable("reference/build.sh")()
        make("-C", "tools/openmp_recorder", *self.compiler_words())

    def install(self, spec, prefix):
        make("-C", "tools", "install", "PREFIX=" + prefix, *self.compiler_words())

    def compiler_words(self):
        """The recorder's Makefile looks for a Debian's clang++-N and its header."""
        llvm = self.spec["llvm"]
        include = os.path.dirname(find(llvm.prefix, "omp-tools.h")[0])
        return ["CXX=" + llvm.prefix.bin.join("clang++"), "INCLUDE=-Irecorder -Iconverter -Ishared -isystem " + include]
