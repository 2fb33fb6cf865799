#!/usr/bin/env bash
# Measures what recording costs a program of OpenMP tasks on each runtime that is here, LLVM's and gcc's, on four threads
# (OMP_NUM_THREADS), and what its log takes to be converted: recording.sh [RUNS [OTHER_RECORDER.so]].
set -euo pipefail
# shellcheck source=bench/common.sh
. "$(dirname "$0")/common.sh"
# shellcheck source=checks/llvm.sh
. "$top/checks/llvm.sh"
find_llvm || { echo "$no_llvm" >&2; exit 1; }
recorder=$top/tools/openmp_recorder
make -s -C "$recorder" LLVM="$llvm"
while read -r number runtime headers; do
    "clang-$number" -O2 -g -fopenmp "-isystem$headers" "$top/bench/recording/tasks.c" -o "$scratch/tasks-llvm-$number" \
        "-L$runtime" "-Wl,-rpath,$runtime"
done < <("$top/checks/llvm/versions.py")
gcc -O2 -g -fopenmp "$top/bench/recording/tasks.c" -o "$scratch/tasks-gcc-$(gcc -dumpversion)"
"clang-$llvm" -O2 "$top/bench/recording/calls.c" -o "$scratch/calls" -ldl
"clang-$llvm" -O2 -shared -fPIC "$top/bench/recording/nothing.c" -o "$scratch/nothing.so" "${llvm_flags[@]}"
export OMP_NUM_THREADS=${OMP_NUM_THREADS:-4}
python3 "$top/bench/recording/measure.py" "$scratch" "$recorder/librecorder.so" "$recorder/convert_log" "$@"
