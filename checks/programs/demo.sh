#!/usr/bin/env bash
# Tries ./demo in a copy of the repository: with a program that is built, with the reference implementation where none
# is and `rt` is missing, and where packages are missing and may not be installed. Build spanprof first; another program
# may be named.
set -euo pipefail
cd "$(dirname "$0")/../.."
# shellcheck source=checks/needs.sh
. checks/needs.sh
needs_spanprof "$@"
spanprof=$SPANPROF large=${SPANPROF_LARGE:-}
unset SPANPROF SPANPROF_LARGE
needs_llvm
[ -e "/usr/lib/llvm-$llvm/lib/libomp.so.5" ] || skip "LLVM's OpenMP runtime is missing (package libomp-$llvm-dev)"
export LLVM=$llvm
folder=$(mktemp -d)
trap 'rm -rf "$folder"' EXIT
mkdir "$folder/repository"
git ls-files -z demo tools reference examples crates/spanprof/src | xargs -0 cp -P --parents -t "$folder/repository"
cd "$folder/repository"
wrong=0
fail() { echo "  $1"; wrong=$((wrong + 1)); cat "$folder/output"; }
has() { grep -qF -- "$1" "$folder/output" || fail "$2: no line '$1'"; }

SPANPROF=$spanprof SPANPROF_LARGE=$large ./demo > "$folder/output" 2>&1 || fail "the demo fails"
has 'needs clang libomp-dev make binutils python3: all there' "the demo"
has 'sorted 1048576' "the demo"
has 'merge_sort: ' "the demo"
has 'sure  1 run' "the demo"
grep -q '</html>' out/demo/merge_sort.html || fail "no page"
echo "with a program"

# The same words without `rt`: nothing is said to be proved.
rust=$(command -v rustc || true)
if [ -n "$rust" ]; then
    mkdir "$folder/bin"
    ln -s "$rust" "$folder/bin/rustc"
    PATH=$folder/bin:/usr/bin:/bin ./demo > "$folder/output" 2>&1 || fail "the demo fails without rt"
    has "unproved: the reference implementation" "without rt"
    ! grep -q '(proved' "$folder/output" || fail "without rt: a line says proved"
    # The last line records a program of one's own, as it is printed.
    cp out/demo/merge_sort mine
    tail -n 1 "$folder/output" | bash > "$folder/own" 2>&1 || { fail "the last line fails"; cat "$folder/own"; }
    grep -q '^mine: ' "$folder/own" || { fail "the last line shows no diagnosis"; cat "$folder/own"; }
    grep -q 'computed by the reference implementation, not verified' out/demo/merge_sort.html || fail "without rt: the page does not say it"
    echo "without rt"
fi

chmod 755 "$folder"
as_nobody() { if [ "$(id -u)" = 0 ]; then setpriv --reuid=65534 --regid=65534 --clear-groups "$@"; else "$@"; fi; }
chmod 777 out/demo
status=0
as_nobody env -u LLVM PATH=/usr/bin:/bin SPANPROF="$spanprof" DEMO_USR=/none ./demo > "$folder/output" 2>&1 || status=$?
[ $status = 1 ] || fail "with missing packages the status is $status"
has 'run this, and then ./demo again: sudo apt-get install clang libomp-dev' "missing packages"
echo "missing packages"

echo "$wrong wrong"
[ "$wrong" -eq 0 ]
