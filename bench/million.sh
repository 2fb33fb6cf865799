#!/usr/bin/env bash
# What a million tasks take from the program to the page: processor time of all processes, and the most memory of one.
# The program is that of checks/agree/large_recordings, on four threads: million.sh [SHAPE=NUMBER ..], such as tree=20.
set -euo pipefail
# shellcheck source=bench/common.sh
. "$(dirname "$0")/common.sh"
# shellcheck source=checks/llvm.sh
. "$top/checks/llvm.sh"
find_llvm || { echo "$no_llvm" >&2; exit 1; }
make -s -C "$top/tools/openmp_recorder" LLVM="$llvm"
"clang-$llvm" -O2 -g -fopenmp "$top/checks/agree/large_recordings/program.c" -o "$scratch/program" "${llvm_flags[@]}"
OMP_NUM_THREADS=4 python3 "$top/bench/recording/million.py" "$scratch" "${@:-row=1000000}"
