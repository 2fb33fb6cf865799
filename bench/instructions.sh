#!/usr/bin/env bash
# Counts the instructions of the commands and of the reference implementation, in millions, on the texts of
# make_texts.py. valgrind counts them. Other work on the machine changes nothing but how the threads of `curve`, `run` and `check` wait.
#
#     bench/instructions.sh [TEXT..]      PROGRAM names the program, if it is built
set -euo pipefail
# shellcheck source=bench/common.sh
. "$(dirname "$0")/common.sh"
build_program
make_texts
build_reference

# count FILE WORD..: how many instructions the words take on this input.
count() {
    local input=$1
    shift
    valgrind --tool=cachegrind --cache-sim=no --cachegrind-out-file=/dev/null "$@" < "$input" 2>&1 > /dev/null |
        sed -n 's/.*I *refs: *//p' | tr -d ,
}

# named_row TEXT COMMAND FILE WORD..: the row of a command on a text, whose input is this file.
named_row() {
    local name=$1 command=$2 input=$3 ours plain
    shift 3
    ours=$(count "$input" "$PROGRAM" "$@")
    plain=$(count "$input" "$reference" "$@")
    awk -v name="$name" -v words="$command" -v ours="$ours" -v plain="$plain" \
        'BEGIN { printf "%-14s %-20s %9.1f %9.1f %6.2f\n", name, words, ours / 1e6, plain / 1e6, ours / plain }'
}

# row TEXT FILE WORD..: the row of a command that is called by all its words.
row() { named_row "$1" "${*:3}" "$2" "${@:3}"; }

# changes SEGMENTS: a change of the cost of each of so many segments.
changes() { seq 0 $(($1 - 1)) | awk '{ print $1 "=" $1 % 7 }'; }

printf '%-14s %-20s %9s %9s %6s\n' text command spanprof plain times
names=("$@")
[ $# -gt 0 ] || mapfile -t names < <(basename -s .tasks "$scratch"/texts/*.tasks)
for name in "${names[@]}"; do
    text=$scratch/texts/$name.tasks
    row "$name" "$text" span
    row "$name" "$text" slack
    row "$name" "$text" greedy --threads 64
    row "$name" "$text" curve --upto 64
    segments=$("$reference" span < "$text" | sed -n 's/^segments //p')
    named_row "$name" whatif "$text" whatif 0=1000 "$((segments - 1))=7" "$(((segments - 1) / 2))=3"
    mapfile -t words < <(changes "$segments")
    named_row "$name" "whatif all" "$text" whatif "${words[@]}"
    row "$name" "$text" run --workers 1
    row "$name" "$text" certify
    "$reference" certify < "$text" > "$scratch/certificate"
    row "$name" "$scratch/certificate" check
done
