#!/usr/bin/env bash
# Records programs before and after a change that was really made, by the processor's clock, and holds what
# spanprof-whatif tells of the change against the rewritten program's own text: the greedy ends on 4 and on 16 threads
# to a twentieth, and the shape. Build spanprof first.
#
#     checks/programs/whatif.sh [kept]      kept: of the recordings in examples/openmp/recorded alone, on a busy machine too
# Variables: SPANPROF (crates/spanprof/out/spanprof), LLVM (the newest version that has compiler and runtime),
# LLVM_FOLDERS (checks/llvm/versions.py).
set -euo pipefail
cd "$(dirname "$0")/../.."
# shellcheck source=checks/needs.sh
. checks/needs.sh
needs_spanprof
python3 -B checks/programs/whatif/rewrites.py kept
[ "${1:-}" != kept ] || exit 0

needs_llvm
folder=$(mktemp -d)
trap 'rm -rf "$folder"' EXIT
compile() { # SOURCE PROGRAM [OPTION]
    "clang-$llvm" -O2 -g -fopenmp "${@:3}" "$1" -o "$folder/$2" "${llvm_flags[@]}"
}
for source in checks/programs/whatif/*.c; do
    name=$(basename "$source" .c)
    compile "$source" "$name"
    compile "$source" "${name}_rewritten" -DREWRITTEN
done
for name in wavefront wavefront_overlapped merge_sort merge_sort_split; do
    compile "examples/openmp/$name.c" "$name"
done
make -s -C tools/openmp_recorder LLVM="$llvm"
echo "LLVM $llvm"
wrong=0
python3 -B checks/programs/whatif/rewrites.py "$folder" || wrong=1
exit $wrong
