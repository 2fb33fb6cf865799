#!/usr/bin/env bash
# Compares the texts of examples/ with what make_kernels.py writes (but for their heads), those that are said by loops
# with the same program written out, and the table of examples/README.md with what `span` prints; of examples/imports what
# `spanprof import` prints, and the time breakdown of each. Build spanprof and spanprof_large first. Other programs may be
# named, as a word or in SPANPROF, and in SPANPROF_LARGE.
set -euo pipefail
cd "$(dirname "$0")/../.."
. checks/needs.sh
needs_spanprof "$@"
program=$SPANPROF
wrong=0
fail() { echo "  $1"; wrong=$((wrong + 1)); }

without_head() { sed -n '/^omptasks/,$p' "$@"; }
for text in examples/*.tasks; do
    name=$(basename "$text" .tasks)
    case $name in
        worked) continue ;;
        *_loops)
            cmp -s <("$program" slack < "$text") <("$program" slack < "examples/${name%_loops}.tasks") ||
                fail "$name: another program"
            continue ;;
    esac
    cmp -s <(without_head "$text") <(examples/make_kernels.py "$name" | without_head) || fail "$name: made otherwise"
    printed=$("$program" span < "$text" | awk '{ printf "| %s ", $2 }')
    grep -F "[$name]($name.tasks)" examples/README.md | grep -qF "$printed|" || fail "$name: span prints $printed|"
done

export SPANPROF_LARGE=${SPANPROF_LARGE:-$PWD/crates/spanprof_large/out/spanprof_large}
top=$PWD folder=$(mktemp -d)
trap 'rm -rf "$folder"' EXIT
cp examples/imports/* "$folder"
cd "$folder"
while read -r words; do
    echo "\$ $words"
    read -ra words <<< "$words"
    "$top/tools/bin/${words[0]}" "${words[@]:1}" 2>&1 || true
    for made in *.spanprof; do
        { cat "$made/program.tasks"; echo ---; cat "$made/times"; } | $SPANPROF_LARGE account || true
        rm -r "$made"
    done
done < <(sed -n 's/^\$ //p' expected.txt) > printed
diff expected.txt printed || fail "spanprof import prints something else"
echo "$wrong wrong"
[ "$wrong" -eq 0 ]
