#!/usr/bin/env bash
# Runs programs that nothing was fitted to (checks/programs/predictions/unseen), and judges what is predicted of their
# times on four threads: from recordings on four, from those on one and two, and after a change. It prints a table, how
# far predictions were off, how many intervals had the true time, and whether the machine was quiet, as it has to be
# while `turns` run. Build spanprof first.
#
#     checks/programs/unseen.sh all [FOLDER [TURNS]]      the next four, in a folder that is made
#     checks/programs/unseen.sh build FOLDER              compiles them, before and after their changes
#     checks/programs/unseen.sh turns FOLDER [TURNS]      so many turns more (12), each ten seconds
#     checks/programs/unseen.sh texts FOLDER              makes texts of the recordings
#     checks/programs/unseen.sh judge FOLDER              judges by all that the folder has
#     checks/programs/unseen.sh kept                      judges by what is kept of a measurement, and runs nothing
# RUNTIME=gnu: others on gcc's runtime, recorded and predicted on four threads alone, two seconds a turn.
# SET=shapes: ten later ones in place of either, with changes on gcc's runtime too.
# Variables: SPANPROF (crates/spanprof/out/spanprof), LLVM (16), LLVM_FOLDERS (checks/llvm/versions.py),
# SPANPROF_MACHINE (a model of this machine; without it `build` measures that first, in half a minute).
set -euo pipefail
top=$(cd "$(dirname "$0")/../.." && pwd)
step=${1:-all}
judge=$top/checks/programs/predictions/measure_unseen.py
[ "$step" != kept ] || exec python3 -B "$judge" judge "$top/checks/programs/predictions/unseen"
folder=$(realpath -m "${2:-$(mktemp -d)}")
cd "$top"
# shellcheck source=checks/needs.sh
. checks/needs.sh
needs_spanprof
export LLVM=${LLVM:-16}
needs_llvm
case $step in all | build) make -s -C tools/openmp_recorder LLVM="$LLVM" ;; esac
echo "$folder keeps what is measured"
exec python3 -B "$judge" "$step" "$folder" "${@:3}"
