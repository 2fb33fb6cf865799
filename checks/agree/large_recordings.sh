#!/usr/bin/env bash
# Records programs of 160,000 to 1,000,000 tasks with LLVM's runtime: a tree, a grid with depend, a row of independent
# tasks. Compares what spanprof_large tells of each recording with a plain program that keeps the whole graph
# (checks/agree/large_recordings). Tells how long recording took. Build spanprof_large first.
# large_recordings.sh [NAME=NUMBER ..]: these programs, such as tree=18. Ends with status 1 where one is wrong.
set -euo pipefail
cd "$(dirname "$0")/../.."
# shellcheck source=checks/needs.sh
. checks/needs.sh
needs_llvm
built=crates/spanprof_large/out/spanprof_large
[ -n "${SPANPROF_LARGE:-}" ] || [ -x $built ] || skip "no program $built; tools/prove_program.sh spanprof_large makes it"
make -s -C tools/openmp_recorder LLVM="$llvm" librecorder.so
LLVM=$llvm exec python3 -B checks/agree/large_recordings/compare.py "$@"
