# shellcheck shell=bash
# Sourced by the checks, from the repository's folder: what a check needs, and how it is skipped where that is missing.

# shellcheck source=checks/llvm.sh
. checks/llvm.sh

skip() { echo "skipped: $1"; exit 0; }

# needs_spanprof [PROGRAM]: exports SPANPROF, the path of this program, of that in SPANPROF, or of the one that the gate
# left. The check fails where there is none. It exports SPANPROF_LARGE too, which sums by place ask, where that is there.
needs_spanprof() {
    SPANPROF=$(realpath -m "${1:-${SPANPROF:-crates/spanprof/out/spanprof}}")
    export SPANPROF
    [ -x "$SPANPROF" ] || { echo "no program $SPANPROF"; exit 1; }
    local large=$PWD/crates/spanprof_large/out/spanprof_large
    [ -n "${SPANPROF_LARGE:-}" ] || [ ! -x "$large" ] || export SPANPROF_LARGE=$large
}

# needs_llvm: what find_llvm sets, or the check is skipped.
needs_llvm() { find_llvm || skip "$no_llvm"; }
