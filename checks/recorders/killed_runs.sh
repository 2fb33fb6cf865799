#!/usr/bin/env bash
# Kills a recorded program at random moments, 100 or as many as named, on LLVM's runtime and on gcc's, and has each log
# converted: what was recorded until then is there (checks/recorders/killed_runs/killed.py). It needs no spanprof.
set -euo pipefail
cd "$(dirname "$0")/../.."
# shellcheck source=checks/llvm.sh
. checks/llvm.sh
find_llvm || { echo "skipped: $no_llvm"; exit 0; }
make -s -C tools/openmp_recorder LLVM="$llvm"
python3 -B checks/recorders/killed_runs/killed.py "$@"
RUNTIME=gnu python3 -B checks/recorders/killed_runs/killed.py "$@"
