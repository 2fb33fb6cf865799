#!/usr/bin/env bash
# Records programs whose truth is known by how they are made (checks/recorders/true_words/shapes.c) on 1 to 8 threads, and holds
# what the summary says against that truth, and against runs on more threads that would refute it. Build spanprof first.
#
#     checks/recorders/true_words.sh [CLOCK ..]    cpu, wall and counted, without any cpu
# Variables: SPANPROF (crates/spanprof/out/spanprof), LLVM (the newest version that has compiler and runtime),
# LLVM_FOLDERS (checks/llvm/versions.py).
set -euo pipefail
cd "$(dirname "$0")/../.."
# shellcheck source=checks/needs.sh
. checks/needs.sh
needs_spanprof

needs_llvm
folder=$(mktemp -d)
trap 'rm -rf "$folder"' EXIT
"clang-$llvm" -O1 -g -fopenmp checks/recorders/true_words/shapes.c -o "$folder/llvm" "${llvm_flags[@]}"
gcc -O1 -g -fopenmp checks/recorders/true_words/shapes.c -o "$folder/gcc"
status=0
for runtime in llvm gcc; do
    echo "on the runtime of $runtime"
    python3 -B checks/recorders/true_words/judge.py "$folder/$runtime" "$@" || status=1
done
exit $status
