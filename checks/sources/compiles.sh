#!/usr/bin/env bash
# Has a compiler read the programs in C and C++ that no other check of `.ci/run` compiles: those of faults found in
# runtimes, of benches, examples and checks that are run by hand. Nothing is built. Needs clang and LLVM's OpenMP
# runtime.
set -uo pipefail
cd "$(dirname "$0")/../.." || exit 1
# shellcheck source=checks/needs.sh
. checks/needs.sh
needs_llvm
wrong=0 count=0

# reads WORD..: the compiler takes these words, the last of which is the program.
reads() {
    local reported
    count=$((count + 1))
    reported=$("$@" 2>&1) || { printf '  %s\n%s\n' "${*: -1}" "$reported"; wrong=$((wrong + 1)); }
}

syntax=("-fsyntax-only" "-Qunused-arguments" "-fopenmp" "${llvm_flags[@]}")
for file in tools/conformance/found/*.c tools/conformance/mutants/*.c examples/openmp/*.c bench/recording/*.c \
    checks/hostile/*.c; do
    reads "clang-$llvm" "${syntax[@]}" -Itools/conformance/harness "$file"
done
for file in checks/recorders/runtime_calls/*.cpp; do reads "clang++-$llvm" "${syntax[@]}" -std=c++17 "$file"; done
echo "$count programs read, $wrong wrong"
[ "$wrong" -eq 0 ]
