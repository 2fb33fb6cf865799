#!/usr/bin/env bash
# Records programs of libgomp's own tests, compiled by clang and gcc, on LLVM's runtime, and compares each recording with
# what a library that stands between the program and its runtime has seen of the program's calls. Build spanprof first.
#
#     checks/recorders/runtime_calls.sh [WORD ..]     --llvm 19,16: these versions (those that are there); --all: programs
#                                           without tasks too, by what they print; --most N: so many programs
#                                           of each compiler; --only NAME; --verbose
set -euo pipefail
cd "$(dirname "$0")/../.."
skip() { echo "skipped: $1"; exit 0; }
checks/llvm/versions.py > /dev/null || skip "LLVM's compiler or runtime is missing (packages clang-19, libomp-19-dev)"
command -v g++ > /dev/null || skip "gcc is missing (package g++)"
ls /usr/src/gcc-*/gcc-*.tar.xz > /dev/null 2>&1 || skip "libgomp's tests are missing (package gcc-12-source)"
export SPANPROF=${SPANPROF:-$PWD/crates/spanprof/out/spanprof}
[ -x "$SPANPROF" ] || { echo "no program $SPANPROF"; exit 1; }
make -s -C checks/recorders/runtime_calls
make -s -C tools/openmp_recorder  # before many recordings need it at once
exec python3 -B checks/recorders/runtime_calls/runtime_calls.py "$@"
