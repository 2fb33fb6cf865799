#!/usr/bin/env bash
# Times spanprof_large and the reference implementation, on programs of a million tasks, and prints the most memory that
# each held. Compares what both print first. In `items` there are a tenth of the tasks, with 32 names each, and
# `one_line` is a line of 1 GB, or of 1,000 bytes for each task where there are fewer.
#
#     bench/large.sh [TASKS]           LARGE names the program, if it is built
#     bench/large.sh path [TASKS]      times spanprof-path on the same texts: all of it, and the most memory of a part
#     bench/large.sh tables [TASKS]    times the commands that take the table
set -euo pipefail
# shellcheck source=bench/common.sh
. "$(dirname "$0")/common.sh"
with=plain
case ${1:-} in path | tables) with=$1; shift ;; esac
tasks=${1:-1000000}
if [ -z "${LARGE:-}" ]; then
    "$top/tools/prove_program.sh" spanprof_large > "$scratch/output" 2>&1 || { cat "$scratch/output" >&2; exit 1; }
    LARGE=$top/crates/spanprof_large/out/spanprof_large
fi
build_reference

# timed FILE PROGRAM WORD..: processor time in seconds, the least of five, and the most memory in MiB.
timed() {
    local input=$1
    shift
    for _ in 1 2 3 4 5; do
        /usr/bin/time -f '%U %S %M' -o "$scratch/used" "$@" < "$input" > "$scratch/report"
        cat "$scratch/used"
    done | awk '{ took = $1 + $2; if (NR == 1 || took < least) least = took; if ($3 > most) most = $3 }
        END { printf "%.2f %.1f\n", least, most / 1024 }'
}

# row NAME FILE: the row of a text.
row() {
    "$LARGE" < "$2" > "$scratch/ours"
    "${reference}_large" < "$2" > "$scratch/plains"
    cmp "$scratch/ours" "$scratch/plains" || exit 1
    local ours plain
    read -ra ours < <(timed "$2" "$LARGE")
    read -ra plain < <(timed "$2" "${reference}_large")
    awk -v name="$1" -v bytes="$(stat -c %s "$2")" -v ours="${ours[0]}" -v plain="${plain[0]}" -v held="${ours[1]}" \
        -v plainly="${plain[1]}" 'BEGIN { printf "%-12s %6.1f %8.2f %6.2f %6.2f %8.1f %6.1f\n", name, bytes / 1e6, ours, plain,
            ours / (plain > 0 ? plain : 0.01), held, plainly }'
}

# table_rows NAME FILE: a row for each command on a text.
table_rows() {
    local words ours plain
    for words in slack 'greedy --threads 64' 'whatif 0=5'; do
        read -ra words <<< "$words"
        "$LARGE" "${words[@]}" < "$2" > "$scratch/ours"
        "${reference}_large" "${words[@]}" < "$2" > "$scratch/plains"
        cmp "$scratch/ours" "$scratch/plains" || exit 1
        read -ra ours < <(timed "$2" "$LARGE" "${words[@]}")
        read -ra plain < <(timed "$2" "${reference}_large" "${words[@]}")
        awk -v name="$1" -v asked="${words[0]}" -v ours="${ours[0]}" -v plain="${plain[0]}" -v held="${ours[1]}" \
            -v plainly="${plain[1]}" 'BEGIN { printf "%-12s %-7s %8.2f %6.2f %6.2f %8.1f %8.1f\n", name, asked, ours, plain,
                ours / (plain > 0 ? plain : 0.01), held, plainly }'
    done
}

# path_row NAME FILE: the row of a text under spanprof-path: processor time in seconds, and the most memory of one of its
# processes in MiB.
path_row() {
    SPANPROF_LARGE=$LARGE /usr/bin/time -f '%U %S %M' -o "$scratch/used" "$top/tools/spanprof-path" "$2" > /dev/null
    awk -v name="$1" -v bytes="$(stat -c %s "$2")" '{ printf "%-12s %6.1f %8.2f %8.1f\n", name, bytes / 1e6, $1 + $2, $3 / 1024 }' \
        "$scratch/used"
}

names='independent chain tree nested stencil grid names colliding items same_items groups one_line'
case $with in
    path) printf '%-12s %6s %8s %8s\n' text MB seconds MiB ;;
    plain) printf '%-12s %6s %8s %6s %6s %8s %6s\n' text MB seconds plain times MiB plain ;;
    tables)
        names='independent chain tree nested stencil grid far_apart groups'
        printf '%-12s %-7s %8s %6s %6s %8s %8s\n' text command seconds plain times MiB plain
        ;;
esac
for name in $names; do
    count=$tasks
    if [ "$name" = items ]; then count=$((tasks / 10)); fi
    python3 "$top/bench/large_texts.py" "$name" "$count" > "$scratch/$name.tasks"
    case $with in
        path) path_row "$name" "$scratch/$name.tasks" ;;
        plain) row "$name" "$scratch/$name.tasks" ;;
        tables) table_rows "$name" "$scratch/$name.tasks" ;;
    esac
    rm "$scratch/$name.tasks"
done
