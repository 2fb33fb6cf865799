#!/usr/bin/env bash
# Records programs whose work and span are known by how they are made (checks/recorders/whole_program/shapes.c) on 1 to 8 threads,
# each as one text, and holds work, span, what the head says is covered, and the summary against that. Build spanprof
# first.
#
#     checks/recorders/whole_program.sh [SHAPE ..]    these shapes, or all
# Variables: SPANPROF (crates/spanprof/out/spanprof), LLVM (the newest version that has compiler and runtime; chunks of
# loops are told from 16 on), LLVM_FOLDERS (checks/llvm/versions.py).
set -euo pipefail
cd "$(dirname "$0")/../.."
# shellcheck source=checks/needs.sh
. checks/needs.sh
needs_spanprof

needs_llvm
[ "$llvm" -ge 16 ] || skip "LLVM $llvm does not tell the chunks of loops"
folder=$(mktemp -d)
trap 'rm -rf "$folder"' EXIT
"clang-$llvm" -O1 -g -fopenmp checks/recorders/whole_program/shapes.c -o "$folder/shapes" "${llvm_flags[@]}"
echo "LLVM $llvm"
make -s -C tools/openmp_recorder LLVM="$llvm"
python3 -B checks/recorders/whole_program/judge.py "$folder/shapes" "$@"
[ $# -eq 0 ] || exit 0
python3 -B checks/recorders/whole_program/covering.py
echo "gcc, but for shapes with loops that its code divides by itself"
gcc -O1 -g -fopenmp checks/recorders/whole_program/shapes.c -o "$folder/shapes"
python3 -B checks/recorders/whole_program/judge.py "$folder/shapes" chunks steps one_region outside doacross \
    before_the_wait wavefront in_order
