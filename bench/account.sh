#!/usr/bin/env bash
# Times `spanprof_large account` and the reference implementation, on greedy schedules of 64 threads as timed runs,
# and tells the most memory that each held, in all and for a segment beside the document. Compares what both print first.
#
#     bench/account.sh [TASKS ..]      10000 100000 1000000, if none are given; LARGE names the program, if it is built
set -euo pipefail
# shellcheck source=bench/common.sh
. "$(dirname "$0")/common.sh"
[ $# -gt 0 ] || set -- 10000 100000 1000000
if [ -z "${LARGE:-}" ]; then
    "$top/tools/prove_program.sh" spanprof_large > "$scratch/output" 2>&1 || { cat "$scratch/output" >&2; exit 1; }
    LARGE=$top/crates/spanprof_large/out/spanprof_large
fi
build_reference

# document NAME TASKS: a text and its greedy schedule. A segment that costs nothing has no thread: any will do.
document() {
    python3 "$top/bench/large_texts.py" "$1" "$2" > "$scratch/text"
    "${reference}_large" greedy --threads 64 < "$scratch/text" > "$scratch/run"
    cat "$scratch/text"
    echo ---
    awk -F, 'NR > 1 { if ($3 > last) last = $3 } END { print "times 64 0 " last }' "$scratch/run"
    awk -F, 'NR > 1 { print $1, $4 + 0, $2, $3 }' "$scratch/run"
}

# timed PROGRAM WORD..: processor time in seconds, the least of five, and the most memory in MiB.
timed() {
    for _ in 1 2 3 4 5; do
        /usr/bin/time -f '%U %S %M' -o "$scratch/used" "$@" < "$scratch/timed" > "$scratch/report"
        cat "$scratch/used"
    done | awk '{ took = $1 + $2; if (NR == 1 || took < least) least = took; if ($3 > most) most = $3 }
        END { printf "%.2f %.1f\n", least, most / 1024 }'
}

row() { # NAME TASKS WORD..
    local name=$1 tasks=$2 ours plain
    shift 2
    "$LARGE" "$@" < "$scratch/timed" > "$scratch/ours"
    "${reference}_large" "$@" < "$scratch/timed" > "$scratch/plains"
    cmp "$scratch/ours" "$scratch/plains"
    read -ra ours < <(timed "$LARGE" "$@")
    read -ra plain < <(timed "${reference}_large" "$@")
    awk -v name="$name" -v tasks="$tasks" -v asked="$*" -v ours="${ours[0]}" -v plain="${plain[0]}" -v held="${ours[1]}" \
        -v plainly="${plain[1]}" -v bytes="$(stat -c %s "$scratch/timed")" -v segments="$(wc -l < "$scratch/run")" \
        'BEGIN { printf "%-12s %8d %-14s %8.2f %6.2f %6.2f %8.1f %8.1f %8.0f\n", name, tasks, asked, ours, plain,
            ours / (plain > 0 ? plain : 0.01), held, plainly, (held * 1048576 - bytes) / (segments - 1) }'
}

printf '%-12s %8s %-14s %8s %6s %6s %8s %8s %8s\n' text tasks words seconds plain times MiB plain bytes
for tasks in "$@"; do
    for name in independent tree grid groups; do
        document "$name" "$tasks" > "$scratch/timed"
        for words in account 'account --rows' 'account --path'; do
            read -ra words <<< "$words"
            row "$name" "$tasks" "${words[@]}"
        done
    done
done
