#!/usr/bin/env bash
# Builds programs that are slow for one known cause, and a repaired one of each; times both without the recorder,
# records the first on four threads, and compares the diagnosis with what is known: the kind of cause, its place, and
# where the machine is quiet the gain, to 10 points. Build spanprof and spanprof_large first.
#
#     checks/programs/causes.sh [--other] [--compiler gcc] [--keep FOLDER] [--lines FILE] [KIND|NAME ..]
#     checks/programs/causes.sh [--other] --again FOLDER [--lines FILE] [KIND|NAME ..]
#     checks/programs/causes.sh kept      only diagnoses the recordings that are kept in causes/kept.tar.xz
# --other takes the second set of programs, in causes/other. Two of either may be wrong.
# --compiler gcc takes gcc and its own runtime, and no LLVM. --keep leaves the recordings and times in FOLDER, --again
# diagnoses those that are there, and --lines writes the lines of each diagnosis to FILE.
# Variables: SPANPROF, SPANPROF_LARGE (those that the gate left), LLVM (the newest version that has compiler and
# runtime), AROUND (words in front of what times and records one program, such as "chrt -f 20").
set -euo pipefail
cd "$(dirname "$0")/../.."
# shellcheck source=checks/needs.sh
. checks/needs.sh
needs_spanprof
if [ "${1:-}" = kept ]; then exec python3 -B checks/programs/causes/kept.py; fi
programs=checks/programs/causes compiler=clang words=()
while [ $# -gt 0 ]; do
    case $1 in
        --other) programs+=/other ;;
        --compiler) compiler=$2 && shift ;;
        --again) compiler=none words+=("$1" "$2") && shift ;;
        *) words+=("$1") ;;
    esac
    shift
done
if [ "$compiler" != none ]; then
    [ "$(nproc)" -ge 4 ] || skip "four processors are needed, and there are $(nproc)"
    needs_llvm
    make -s -C tools/openmp_recorder LLVM="$llvm"
fi
case $compiler in
    clang) words+=(--compiler "clang-$llvm" "--flags=${llvm_flags[*]}") ;;
    gcc) words+=(--compiler gcc) ;;
esac
python3 -B checks/programs/causes/run.py --programs "$programs" "--around=${AROUND:-}" --wrong 2 "${words[@]}"
