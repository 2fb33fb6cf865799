#!/usr/bin/env bash
# Records the programs of docs/TUNING.md on four threads by the processor's clock, with the newest LLVM that is here: of
# several recordings of each the one whose region ended soonest, or with the least work where these are compared; those
# with a remark are taken only where there are no others.
# Texts go to FOLDER as NAME.tasks, and what spanprof-record printed, where the page shows it, as NAME.said.
#
#     examples/openmp/record.sh FOLDER [NAME ..]      all of them, if none is named; then checks/agree/documents.py --write
# SPANPROF and SPANPROF_LARGE name the programs.
set -euo pipefail
cd "$(dirname "$0")/../.."
# shellcheck source=checks/llvm.sh
. checks/llvm.sh
find_llvm || { echo "$no_llvm" >&2; exit 1; }
mkdir -p "${1:?a folder for the texts}"
kept=$(realpath "$1")
shift
top=$PWD
export SPANPROF=${SPANPROF:-$top/crates/spanprof/out/spanprof}
make -s -C tools/openmp_recorder LLVM="$llvm" librecorder.so
scratch=$(mktemp -d)
trap 'rm -rf "$scratch"' EXIT
cd "$scratch"

# record HOW UNIT WORD ..: a run, by spanprof-record where its words are wanted (said), and else by the library alone;
# without the region's parts that have no tasks (none).
record() {
    local how=$1 unit=$2 parts=heavy
    shift 2
    [ "$how" != none ] || parts=none
    if [ "$how" = said ]; then
        "$top/tools/spanprof-record" --out out --unit "$unit" --clock cpu --threads 4 -- "$@" > out.said 2> out.summary
        cat out.summary >> out.said
    else
        OMP_TOOL_LIBRARIES=$top/tools/openmp_recorder/librecorder.so OMP_NUM_THREADS=4 SPANPROF_OUT=out \
            SPANPROF_QUIET=1 SPANPROF_CLOCK=cpu "$@" > /dev/null
    fi
    SPANPROF_PARTS=$parts SPANPROF_UNIT=$unit "$top/checks/llvm/texts.py" out > out.messages 2>&1
}

# weight_of LEAST TEXT: its region's time, or the sum of its costs (work); far more where it has a remark.
weight_of() {
    awk -v least="$1" '/^# elapsed:/ && least == "time" { sum += $3 } $1 == "work" && least == "work" { sum += $2 }
        /^# remark:/ { sum += 1e14 } END { printf "%d", sum }' "$2"
}

keep() { # NAME WHAT: the recording, if it weighs less than the one that is kept
    local text weight
    text=$(find . -maxdepth 1 -name 'out*.tasks' -printf '%f')
    weight=$(weight_of "$2" "$text")
    if [ "$weight" -lt "$least" ]; then
        least=$weight
        cp "$text" "$kept/$1${text#out}"
        [ ! -e out.said ] || sed "s/\bout\.spanprof/$1.spanprof/" out.said > "$kept/$1.said"
    fi
    rm -rf out.*
}

while read -r name times what how unit program words; do
    [ $# = 0 ] || [[ " $* " = *" $name "* ]] || continue
    "clang-$llvm" -O2 -g -fopenmp "$top/examples/openmp/$program.c" -o "$program" -lm "${llvm_flags[@]}"
    least=$((10 ** 18))
    for ((i = 0; i < times; i++)); do
        # shellcheck disable=SC2086
        record "$how" "$unit" "./$program" $words
        keep "$name" "$what"
    done
    echo "$name: $((least % 10 ** 14)) $unit of $what, the least of $times recordings, LLVM $llvm"
done <<'PROGRAMS'
merge_sort 16 time said us merge_sort
merge_sort_split 16 time - us merge_sort_split
wavefront 16 work - us wavefront
wavefront_overlapped 16 work - us wavefront_overlapped
fibonacci_14 60 work - ns fibonacci 27 14
fibonacci_16 60 work - ns fibonacci 27 16
fibonacci_18 60 work - ns fibonacci 27 18
fibonacci_20 60 work - ns fibonacci 27 20
fibonacci_22 60 work - ns fibonacci 27 22
cholesky 60 work none us cholesky 4
PROGRAMS
