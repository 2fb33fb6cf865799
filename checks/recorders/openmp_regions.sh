#!/usr/bin/env bash
# Records random OpenMP regions and compares each recording with the structure that the program must have; spanprof
# judges each run. Build spanprof first. openmp_regions.sh [COUNT [WORD ..]]: 200 programs, or so many; words for
# checks/recorders/openmp_regions/regions.py. Ends with status 1 where a recording is wrong.
set -euo pipefail
cd "$(dirname "$0")/../.."
# shellcheck source=checks/needs.sh
. checks/needs.sh
needs_llvm
command -v g++ > /dev/null || skip "gcc is missing (package g++)"
needs_spanprof
[ -n "${RECORDER:-}" ] || make -s -C tools/openmp_recorder LLVM="$llvm"
LLVM=$llvm exec python3 checks/recorders/openmp_regions/regions.py "${1:-200}" "${@:2}"
