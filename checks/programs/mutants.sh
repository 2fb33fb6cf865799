#!/usr/bin/env bash
# Builds mutants of a task runtime from the distribution's source, has tools/conformance find them, and counts by rule
# what it caught, beside the runtime's own tests. Build spanprof first, or name it in SPANPROF.
#
#     checks/programs/mutants.sh gomp [FOLDER [WORD ..]]    gcc's runtime, of the package gcc-12-source
#     checks/programs/mutants.sh kmp [FOLDER [WORD ..]]     LLVM's, of ARCHIVE=llvm-toolchain-16_16.0.6.orig.tar.xz, which
#                                                  `apt-get source --download-only --tar-only llvm-toolchain-16` gets
#
# FOLDER (out-mutants) keeps the libraries, so that a second call builds none. The words go to
# `spanprof-conformance mutants`. JOBS (4) mutants are tried side by side, each by the programs, threads and settings of
# the five minutes of docs/CONFORMANCE.md. A call that was stopped goes on where it was.
set -euo pipefail
cd "$(dirname "$0")/../.."
family=${1:?gomp or kmp}
folder=$(realpath -m "${2:-out-mutants}")/$family
shift $(($# < 2 ? $# : 2))
compiler=${CC:-$([ "$family" = gomp ] && echo gcc || echo clang-16)}
tasks=$([ "$family" = gomp ] && echo tied,untied,mixed || echo tied) # known faults with untied ones
jobs=${JOBS:-4}
[ -f "$folder/mutants.json" ] ||
    checks/programs/mutants/build.py "$family" "$folder" --jobs "$jobs" ${ARCHIVE:+--archive "$ARCHIVE"}
wrong=0
tools/spanprof-conformance mutants --cc "$compiler" --built "$folder" --jobs "$jobs" --threads 1,2,4,16 \
    --tasks "$tasks" --timeout 3 --keep "$folder/programs" \
    --report "$folder/seen.json" "$@" || wrong=$?
own=()
if [ "$family" = gomp ]; then
    [ -f "$folder/own.json" ] || checks/programs/mutants/own_tests.py "$folder" "$folder/own.json" --jobs "$jobs"
    own=("$folder/own.json")
fi
checks/programs/mutants/table.py "$folder" "$folder/seen.json" "${own[@]}"
exit "$wrong"
