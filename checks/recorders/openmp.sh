#!/usr/bin/env bash
# Records real OpenMP programs: builds the recorder and examples/openmp, runs each program on 1, 2 and 4 threads, on
# LLVM's runtime and on gcc's, and has spanprof_large accept every recorded run of a region whole. Segments are compared with counts by hand; a span and
# spanprof-convert on a large recording are tried too. Build spanprof first. Another program than crates/spanprof/out/spanprof may be named.
set -euo pipefail
cd "$(dirname "$0")/../.."
# shellcheck source=checks/needs.sh
. checks/needs.sh
needs_spanprof "$@"
SPANPROF_LARGE=${SPANPROF_LARGE:-crates/spanprof_large/out/spanprof_large}
program=$SPANPROF
needs_llvm

folder=$(mktemp -d)
trap 'rm -rf "$folder"' EXIT
make -s -C tools/openmp_recorder LLVM="$llvm"
recorder=$PWD/tools/openmp_recorder/librecorder.so
export OMP_NUM_THREADS SPANPROF_OUT=$folder/out
export SPANPROF_PARTS=none SPANPROF_TIMES=1  # the counts by hand are of tasks alone
wrong=0
fail() { # WHAT: tells it, with the last that the recorder said
    echo "  $1"
    [ ! -e "$folder/output" ] || tail -2 "$folder/output" | sed 's/^/    /'
    wrong=$((wrong + 1))
}

compile() { # SOURCE: to a program of the folder
    "${compiler[@]}" -O2 -g -fopenmp "$1" -o "$folder/$(basename "$1" .c)" -lm "${flags[@]}"
}
record() { # NAME WORD ..: runs a program of the folder
    rm -rf "$folder"/out.* "$folder"/part.*
    env "$loaded=$recorder" "$folder/$1" "${@:2}" > "$folder/printed" 2> "$folder/output" || fail "$* fails on $OMP_NUM_THREADS threads"
    checks/llvm/texts.py "$folder/out" 2>> "$folder/output" || fail "$*: its log is not converted"
}
number() { # WORD: the number after it in what `span` prints
    "$program" span < "$folder/out.tasks" | sed -n "s/^$1 //p"
}
expect_whole() { # WHAT: the run has each segment's start and finish, and is legal
    local reported expected
    reported=$("$SPANPROF_LARGE" account < "$folder/out.timed" | head -1)
    [ "$reported" = "threads $OMP_NUM_THREADS" ] || fail "$1: $reported"
}

# Each program with its words, and by hand, for two threads or more: the tasks that it makes, and the waits and ends of
# groups that it meets; `-` where that depends on the run.
try_programs() {
    while read -r name tasks waits words; do
        compile "examples/openmp/$name.c"
        for threads in 1 2 4; do
            OMP_NUM_THREADS=$threads
            # shellcheck disable=SC2086
            record "$name" $words
            expect_whole "$name on $threads threads"
            [ "$tasks" = - ] && continue
            expected=$((1 + 2 * tasks + waits))
            [ "$(number segments)" = $expected ] || fail "$name: $(number segments) segments, and not $expected"
        done
        echo "$name"
    done <<'PROGRAMS'
    cholesky 20 0 4
    fibonacci 24 12 24 20
    merge_sort - - 60000
    merge_sort_split - - 60000
    n_queens 6 1 6 1
    sparse_lu - - 6
    strassen 7 1 128
    taskloop 8 1 20000 8
    wavefront 384 6
    wavefront_overlapped 384 0
PROGRAMS
}

for runtime in gcc "LLVM $llvm"; do
    echo "$runtime"
    compiler=(gcc) flags=() loaded=LD_PRELOAD
    [ "$runtime" = gcc ] || compiler=("clang-$llvm" -fopenmp-version=51) flags=("${llvm_flags[@]}") loaded=OMP_TOOL_LIBRARIES
    try_programs
done

# A span by hand: ten links of one chain that each wait 2 ms, beside ten tasks of 1 ms.
cat > "$folder/chain.c" <<'C'
#include <unistd.h>
int main(void) {
    char link;
#pragma omp parallel
#pragma omp single
    for (int i = 0; i < 10; i++) {
#pragma omp task depend(inout: link)
        usleep(2000);
#pragma omp task
        usleep(1000);
    }
    return 0;
}
C
compile "$folder/chain.c"
SPANPROF_UNIT=ms record chain
if [ "$(number span)" -lt 20 ] || [ "$(number work)" -lt $(($(number span) + 10)) ]; then
    fail "chain: work $(number work), span $(number span)"
fi
echo "a span by hand"

# A large recording by spanprof-convert, which a person calls.
OMP_NUM_THREADS=2
record fibonacci 27 10
tools/spanprof-convert --unit us "$folder/out.spanprof" 2>> "$folder/output" || fail "its text"
place=$(sed -n '3s/.*,//p' "$folder/out.spanprof/regions")
tools/spanprof-convert --region "$place" --out "$folder/part" "$folder/out.spanprof" 2>> "$folder/output" || fail "a region"
[ -e "$folder/part.timed" ] || fail "a region has no times"
echo "spanprof-convert"

echo "$wrong wrong"
[ "$wrong" -eq 0 ]
