#!/usr/bin/env bash
# Tries the edits of checks/edits, each of which the prover has to refuse. The proof check leaves them out: they turn a
# clause of a function that only its crate sees, or one that another edit turns there. They are tried over a copy of the
# crates. All of them take twenty minutes on four processors.
#
#     checks/edits.sh [CRATE..]      all crates, if none is named
set -euo pipefail
cd "$(dirname "$0")/.."
if [ $# -gt 0 ]; then crates=("$@"); else mapfile -t crates < <(ls checks/edits); fi
copy=$(mktemp -d)
trap 'rm -rf "$copy"' EXIT
cp -R crates crates.txt HANDLES "$copy/"
rm -rf "$copy"/crates/*/out "$copy"/crates/*/must-fail
for crate in "${crates[@]}"; do
    [ -d "checks/edits/$crate" ] || { echo "$0: there are no edits of $crate" >&2; exit 2; }
    cp -R "checks/edits/$crate" "$copy/crates/$crate/must-fail"
done
(cd "$copy" && rt must-fail "${crates[@]}")
