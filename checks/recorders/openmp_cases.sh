#!/usr/bin/env bash
# Records small programs one by one, each for one way in which a recording could be wrong or silent, and compares with
# what stands at the head of each (checks/recorders/openmp_cases/case.py). Build spanprof
# first. openmp_cases.sh [NAME ..]: these cases. Ends with status 1 where one is wrong.
set -euo pipefail
cd "$(dirname "$0")/../.."
# shellcheck source=checks/needs.sh
. checks/needs.sh
needs_llvm
command -v gcc > /dev/null || skip "gcc is missing (package gcc)"
needs_spanprof
make -s -C tools/openmp_recorder LLVM="$llvm" librecorder.so test
checks/recorders/exports.py
exec python3 checks/recorders/openmp_cases/cases.py "$@"
