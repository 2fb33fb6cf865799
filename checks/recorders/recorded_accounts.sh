#!/usr/bin/env bash
# Records programs that are slow for a known cause on each version of LLVM's runtime that is here, compiled by its clang,
# and one that gcc compiled on gcc's runtime, by both clocks. The parts of each account add up, have what the program
# slept and the threads without code, and the lines of a run without an account say why there is none. On a quiet machine
# the account has to tell the cause too. Build spanprof and spanprof_large first; `make -C tools install` or the variables
# SPANPROF and SPANPROF_LARGE name others than those built here.
#
#     checks/recorders/recorded_accounts.sh [shares]     shares: on a quiet machine, the cause of each
set -euo pipefail
cd "$(dirname "$0")/../.."
# shellcheck source=checks/llvm.sh
. checks/llvm.sh
SPANPROF=$(realpath "${SPANPROF:-crates/spanprof/out/spanprof}")
SPANPROF_LARGE=$(realpath "${SPANPROF_LARGE:-crates/spanprof_large/out/spanprof_large}")
export SPANPROF SPANPROF_LARGE
skip() { echo "skipped: $1"; exit 0; }
[ -x "$SPANPROF" ] || { echo "no program $SPANPROF"; exit 1; }
[ -x "$SPANPROF_LARGE" ] || skip "no program $SPANPROF_LARGE; tools/prove_program.sh spanprof_large makes it"
find_llvm || skip "$no_llvm"

folder=$(mktemp -d)
trap 'rm -rf "$folder"' EXIT
wrong=0
source=checks/recorders/recorded_accounts/causes.c
gcc -O2 -g -fopenmp "$source" -o "$folder/by_gcc"
programs="by_gcc"
while read -r number library headers; do
    "clang-$number" -O2 -g -fopenmp "-isystem$headers" "$source" -o "$folder/by_clang_$number" "-L$library" \
        "-Wl,-rpath,$library"
    programs+=" by_clang_$number"
done < <(checks/llvm/versions.py)
make -s -C tools/openmp_recorder LLVM="$llvm"
for program in $programs; do
    echo "$program"
    python3 -B checks/recorders/recorded_accounts/judge.py "$folder/$program" "$@" || wrong=$((wrong + 1))
done

tells() { # WHAT WORDS OPTION ..: that the summary of a recording of `small` has
    tools/spanprof-record --all --force --out "$folder/output" "${@:3}" -- "$folder/by_gcc" small 2> "$folder/said"
    grep -qF -- "$2" "$folder/said" || { echo "  $1: the summary lacks '$2'"; cat "$folder/said"; wrong=$((wrong + 1)); }
}
tells "a time breakdown" 'startup and shutdown of the program (measured); '
status=0
SPANPROF_LARGE=/none tools/spanprof-record --out "$folder/none" -- "$folder/by_gcc" small 2> "$folder/said" || status=$?
[ $status = 125 ] && grep -qF '/none: No such file or directory' "$folder/said" ||
    { echo "  no program: status $status"; cat "$folder/said"; wrong=$((wrong + 1)); }
echo "$wrong wrong"
[ "$wrong" -eq 0 ]
