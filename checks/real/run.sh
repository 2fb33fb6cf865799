#!/usr/bin/env bash
# Runs programs of Debian's packages (checks/real/programs.txt) with small inputs, as they are and recorded on the runtime
# that they are linked with: status, output and files have to be the same, the breakdown to add up, and so on
# (checks/real/real.py). Run it by hand, on an idle machine or behind `chrt -f 1`; results.txt has what it said. Build
# spanprof first; run.sh [WORD ..]: commands with one of the words.
set -euo pipefail
cd "$(dirname "$0")/../.."
# shellcheck source=checks/needs.sh
. checks/needs.sh
needs_spanprof
needs_llvm
make -s -C tools/openmp_recorder LLVM="$llvm"
exec python3 -B checks/real/real.py checks/real/programs.txt "$PWD/tools/spanprof-record" "$@"
