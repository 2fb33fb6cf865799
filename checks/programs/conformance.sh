#!/usr/bin/env bash
# Runs tools/conformance: its unit tests; on gcc's and LLVM's runtimes the directed part and a few random programs,
# which have to be accepted and to try every rule, and both in the other settings; all mutants at the entry points,
# which have to be caught; a test that is killed and goes on; and the example's pool of
# threads, of which the broken one has to be refused. checks/programs/mutants.sh has the mutants in the sources. Build spanprof
# first. It may be named, or told by SPANPROF, or stand on the PATH. LLVM's runtime is that of version 16, on which all
# mutants were caught, or of another where that is missing; it gets tied tasks alone.
#
#     checks/programs/conformance.sh [PROGRAM]
#     checks/programs/conformance.sh short    no mutants and no other settings: gcc's runtime alone, a minute
set -euo pipefail
cd "$(dirname "$0")/../.."
short=
[ "${1:-}" != short ] || { short=1; shift; }
# shellcheck source=checks/llvm.sh
. checks/llvm.sh
program=${1:-${SPANPROF:-crates/spanprof/out/spanprof}}
program=$(command -v "$program" || command -v spanprof) || { echo "no program spanprof"; exit 1; }
program=$(realpath "$program")
export SPANPROF=$program
if [ -z "${LLVM:-}" ] && checks/llvm/versions.py 16 > /dev/null; then LLVM=16; fi
find_llvm || llvm=
folder=$(mktemp -d)
trap 'rm -rf "$folder"' EXIT
wrong=0
fail() { echo "  $1"; wrong=$((wrong + 1)); }

test_runtime() { # COMPILER TASKS [FLAGS] of the compiler
    local kept=$folder/kept-${1//\//_}
    ../spanprof-conformance run --cc "$1 ${3:-}" --tasks "$2" --threads 2,4 --programs 10 --runs 2 --seconds 7200 \
        --timeout 60 --keep "$kept" --settings free,pinned,bound,active,passive \
        > "$folder/run.txt" || fail "$1: a run is not accepted"
    cat "$folder/run.txt"
    ../spanprof-conformance run --cc "$1 ${3:-}" --tasks "$2" --threads 2,4 --programs 10 --runs 2 --seconds 7200 \
        --timeout 60 --keep "$kept" --settings priorities,sleepy,perturbed,stacks,unlogged,orphaned,nested \
        > "$folder/settings.txt" ||
        fail "$1: a run in another setting is not accepted"
    head -n 8 "$folder/settings.txt"
    grep -q '^Never held back by this rule alone: none of these\.$' "$folder/run.txt" || fail "$1: a rule is not tried"
    ../spanprof-conformance mutants --cc "$1 ${3:-}" --threads 4 --runs 4 --timeout 3 ||
        fail "$1: a mutant is not caught"
}

in_c() { # NAME: prints the C file of a directed program, which needs harness/
    PYTHONPATH=.. python3 -B - "$1" << 'END'
import os, sys
from spanprof.conformance.generate.directed import directed_programs
from spanprof.conformance.judge.cases import Case, Examined
from spanprof.conformance.judge.verdicts import Judge
body = dict(directed_programs())[sys.argv[1]]
print(Examined(Case("", body, "tied", 0), Judge(os.environ["SPANPROF"])).source())
END
}

# The one file of a program says what is wrong with a runtime, and nothing of one that is right.
test_alone() {
    ../spanprof-conformance emit directed/taskwait_child.tasks > "$folder/alone.c"
    cc -O1 -Wall -Wextra -Werror -fopenmp "$folder/alone.c" -o "$folder/alone"
    "$folder/alone" > /dev/null || return 1
    MUTANT=taskwait-returns LD_PRELOAD=$folder/mutants.so "$folder/alone" > "$folder/alone.txt" && return 1
    grep -q '^seen: ' "$folder/alone.txt"
}

# A program does not hang while nobody reads what it writes.
test_slow_reader() {
    in_c pressure_waits_long > "$folder/slow.c"
    cc -O1 -fopenmp -Iharness "$folder/slow.c" harness/*.c -o "$folder/slow"
    "$folder/slow" 2 4 0 0 5 | (sleep 12; cat) > "$folder/slow.log"
    [ "$(grep -c '^done' "$folder/slow.log")" = 4 ]
}

# A run in which all threads sleep takes a third of its time to hang.
test_asleep() {
    local begun
    in_c taskwait_at_each_level > "$folder/asleep.c"
    cc -O1 -fopenmp -Iharness "$folder/asleep.c" harness/*.c -o "$folder/asleep"
    begun=$SECONDS
    MUTANT=hang LD_PRELOAD=$folder/mutants.so "$folder/asleep" 2 9 0 0 30 > "$folder/asleep.log" || true
    grep -q '^hung asleep$' "$folder/asleep.log" && ((SECONDS - begun < 25))
}

test_futures() { # FLAGS of the compiler
    cc -O1 -Wall -Wextra -Werror -pthread "$@" -Iharness examples/futures.c harness/log.c harness/output.c \
        -o "$folder/futures"
    "$folder/futures" 4 20 > "$folder/futures.log"
    ../spanprof-conformance judge examples/futures.tasks "$folder/futures.log" > "$folder/judged.txt"
}

cd tools/conformance
test_futures || fail "the pool of threads: a run is not accepted"
test_futures -DDONE_TOO_EARLY && fail "the broken pool of threads is accepted"
grep -q '^run 0: refused: ' "$folder/judged.txt" || fail "the broken pool of threads is not refused"
test_slow_reader || fail "a program hangs while nobody reads"
cc -O1 -fPIC -shared mutants/gomp.c -o "$folder/mutants.so" -ldl
test_alone || fail "the one file of a program"
test_asleep || fail "a run in which all threads sleep does not hang soon"
[ -n "$short" ] || ../../checks/programs/conformance_resumed.py || fail "a campaign does not go on"
if [ -n "$short" ]; then
    ../spanprof-conformance run --cc gcc --tasks tied --threads 2,4 --programs 3 --runs 1 --timeout 60 --seconds 3600 \
        --keep "$folder/kept" --settings free > "$folder/run.txt" || fail "a run is not accepted"
else
    test_runtime gcc tied,untied,mixed
fi
if [ -n "$short" ]; then
    echo "LLVM's runtime is not tried"
elif [ -n "${llvm:-}" ]; then
    test_runtime "clang-$llvm" tied "${llvm_flags[*]}"
else
    echo "skipped: $no_llvm"
fi
echo "$wrong wrong"
[ "$wrong" -eq 0 ]
