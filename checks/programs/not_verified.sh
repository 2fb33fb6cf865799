#!/usr/bin/env bash
# Asks a stub that halves the span in place of spanprof_large, and then a program behind other words: no tool may say
# `proved` of what they answer. Of the program itself, with its checksum beside it, all of them do. Build both programs
# first; others may be named.
set -euo pipefail
cd "$(dirname "$0")/../.."
# shellcheck source=checks/needs.sh
. checks/needs.sh
needs_spanprof "$@"
large=$(realpath "${2:-${SPANPROF_LARGE:-crates/spanprof_large/out/spanprof_large}}")
unset SPANPROF_LARGE SPANPROF
[ -x "$large" ] || skip "spanprof_large is not built"
folder=$(mktemp -d)
trap 'rm -rf "$folder"' EXIT
text=examples/openmp/recorded/merge_sort.tasks
wrong=0
fail() { echo "  $1"; wrong=$((wrong + 1)); }

# answers NAME: what each tool prints of the text; SPANPROF_LARGE says by which program.
answers() {
    local reported=$folder/$1
    {
        tools/spanprof-path $text
        tools/spanprof-whatif $text --drop-wait 'taskgroup at merge_sort.c:33'
        tools/spanprof-whatif $text --drop-wait 'taskgroup at merge_sort.c:33' --json
        tools/spanprof-report $text -o "$reported.html" --json
    } > "$reported" 2> "$reported.said" || { fail "$1: a tool fails"; cat "$reported.said"; }
}

# has NAME WORDS, lacks NAME: of the tools' lines and the page alike.
has() { for file in "$folder/$1"{,.html}; do grep -qF "$2" "$file" || fail "$1: no '$2' in $file"; done; }
lacks() {
    for file in "$folder/$1"{,.html}; do
        ! grep -oE ".{40}(proved of|\(proved|proved correct).{40}" "$file" || fail "$1: proved, in $file"
    done
}

printf '#!/bin/sh\n%q "$@" | sed "s/^span .*/span 3000/"\n' "$large" > "$folder/liar"
chmod 755 "$folder/liar"
SPANPROF_LARGE=$folder/liar answers lies
has lies "computed by liar, not verified"
lacks lies
echo "a stub"

SPANPROF_LARGE="env $large" answers behind
has behind "computed by env $(basename "$large"), not verified"
lacks behind
echo "other words"

cp "$large" "$folder/spanprof_large"
sed 's/  .*/  spanprof_large/' "$large.sha256" > "$folder/spanprof_large.sha256" 2> /dev/null ||
    (cd "$folder" && sha256sum spanprof_large > spanprof_large.sha256)
SPANPROF_LARGE=$folder/spanprof_large answers proved
has proved "proved of th"
! grep -r "not verified" "$folder"/proved* || fail "the program is not known"
echo "the program"

echo "$wrong wrong"
[ "$wrong" -eq 0 ]
