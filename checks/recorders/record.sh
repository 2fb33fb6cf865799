#!/usr/bin/env bash
# Tries tools/spanprof-record: its unit tests, then real programs of clang and gcc: what they print, how they end,
# the files, the summary, and each error. Build spanprof first. Another program than crates/spanprof/out/spanprof may
# be named.
set -euo pipefail
cd "$(dirname "$0")/../.."
# shellcheck source=checks/needs.sh
. checks/needs.sh
needs_spanprof "$@"
spanprof=$SPANPROF
needs_llvm

export PATH=$PWD/tools:$PATH OMP_NUM_THREADS=2 SPANPROF_MACHINE=/none
top=$PWD
folder=$(mktemp -d)
trap 'rm -rf "$folder"' EXIT
cd "$folder"
wrong=0
fail() { echo "  $1"; wrong=$((wrong + 1)); }

expect() { # WHAT STATUS COMMAND ..: standard streams in in, out and err
    local what=$1 status=0
    local expected=$2
    shift 2
    "$@" < in > out 2> err || status=$?
    [ $status = "$expected" ] || { fail "$what ends with $status, and not $expected"; cat err; }
}
expect_word() { # WHAT WORDS: that standard error has
    grep -qF -- "$2" err || { fail "$1: standard error lacks '$2'"; cat err; }
}
expect_error() { # STATUS WORDS COMMAND ..: one line and nothing else
    local words=$2
    expect "$words" "$1" "${@:3}"
    [ "$(cat err)" = "spanprof-record: $words" ] || { fail "the line is not '$words'"; cat err; }
}
expect_recording() { # NAME: that it is whole, and spanprof accepts its text
    tools=$top/tools python3 -B -c 'import os, sys
sys.path.insert(0, os.environ["tools"])
from spanprof.recording import open_recording
open_recording(sys.argv[1])' "$1.spanprof" || fail "$1.spanprof is no recording"
    "$spanprof" span < "$1.spanprof/program.tasks" > counted || fail "$1.spanprof: its text is refused"
}
expect_alone() { # WHAT NAME ..: that nothing else lies in this folder
    local there
    there=$(find . -mindepth 1 -maxdepth 1 -printf '%f\n' | sort | tr '\n' ' ')
    [ "$there" = "$(printf '%s\n' "${@:2}" | sort | tr '\n' ' ')" ] || fail "$1: there are $there"
}
titles() { # what the summaries are of, in their order
    grep -o '^[^ ]*\.spanprof, [a-z]*' err | tr '\n' ' '
}
expect_titles() { # WHAT TITLES
    [ "$(titles)" = "$2 " ] || { fail "$1: the summaries are of '$(titles)', and not of '$2'"; cat err; }
}
expect_summary() { # WHAT: lines with their names
    for name in covers tasks runs work span parallelism elapsed threads 'span by place' warnings; do
        grep -q "^$name  *[0-9a-z]" err || fail "$1: no line '$name'"
    done
    expect_word "$1" 'of the recorded text'
}

"clang-$llvm" -g -O1 -fopenmp "$top/checks/recorders/record/program.c" -o llvm "${llvm_flags[@]}"
gcc -g -O1 -fopenmp "$top/checks/recorders/record/program.c" -o gcc
gcc -g -O1 "$top/checks/recorders/record/program.c" -o plain 2> /dev/null
gcc -O1 -fopenmp -static "$top/checks/recorders/record/program.c" -o static 2> /dev/null
gcc -O1 -fopenmp -c "$top/checks/recorders/record/program.c" -o inside.o
gcc inside.o "$(gcc -print-file-name=libgomp.a)" -ldl -lpthread -o inside 2> /dev/null
seq 5 > in

# The same of LLVM's other versions that are there.
others=
while read -r number other headers; do
    [ "$number" != "$llvm" ] || continue
    "clang-$number" -g -O1 -fopenmp "-isystem$headers" "$top/checks/recorders/record/program.c" -o "llvm$number" "-L$other" \
        "-Wl,-rpath,$other"
    others+=" llvm$number"
done < <("$top/checks/llvm/versions.py")

echo "LLVM $llvm"
# shellcheck disable=SC2086
for program in llvm gcc $others; do
    expect "$program" 0 spanprof-record --all --force --unit us -- ./$program
    cmp -s in out || fail "$program: standard output is not the program's own"
    expect_word $program 'a line of the program'
    expect_summary $program
    expect_recording $program
    ! grep -qF 'spanprof recorder' err || fail "$program: the recorder's words stand on standard error"
    expect_titles "$program" "$program.spanprof, the"
    expect "$program 3" 3 spanprof-record --all --force ./$program 3
    expect_recording $program
    expect "$program abort" 134 spanprof-record --all --force -- ./$program abort
    expect_word "$program abort" 'the program ended by SIGABRT'
    expect_recording $program
    expect "$program two" 0 spanprof-record --force --out two -- ./$program two
    expect_recording two
    echo "$program"
done

own_runtime() { # NAME: a library, and gcc's runtime under a name of its own
    cp "$(gcc -print-file-name=libgomp.so.1)" "libgomp-$1.so.1"
    gcc -shared -Wl,-soname,"libgomp-$1.so.1" -x c /dev/null -o "libgomp-$1.so"
    gcc -g -O1 -fopenmp -fPIC -DLIBRARY -c "$top/checks/recorders/record/own_runtimes.c" -o "$1.o"
    gcc -shared "$1.o" -L. -Wl,--no-as-needed "-lgomp-$1" "-Wl,-rpath,$PWD" -o "$1.so"
}
own_runtime first
own_runtime second
gcc -g -O1 "$top/checks/recorders/record/own_runtimes.c" -o own_runtimes -ldl
expect "libraries with a runtime each" 0 spanprof-record --all --force -- ./own_runtimes
expect_word "libraries with a runtime each" 'regions on a second libgomp in the process, not recorded'
expect_recording own_runtimes
echo "libraries with a runtime each"

# A signal goes to the program, which decides how both end.
spanprof-record --force -- ./llvm wait < in > out 2> err &
recorder=$!
for _ in {1..600}; do grep -q waiting out && break; sleep 0.1; done
kill -TERM $recorder
status=0
wait $recorder || status=$?
[ $status = 143 ] || fail "after SIGTERM the status is $status, and not 143"
expect_word "SIGTERM" 'the program ended by SIGTERM'
echo "a signal"

expect "a diagnosis" 0 spanprof-record --force -- ./llvm
[ "$(grep -vc 'a line of the program' err)" -le 8 ] || { fail "a diagnosis has more than eight lines"; cat err; }
[ "$(awk 'length > 100' err | wc -l)" = 0 ] || { fail "a diagnosis has lines of more than 100 columns"; cat err; }
expect_word "a diagnosis" 'llvm: '
grep -q '^sure  1 run' err || fail "a diagnosis: how sure it is"
echo "the diagnosis"

expect "a unit" 0 spanprof-record --all --out unit --clock cpu --unit 100 -- ./llvm
expect_word "a unit" 'costs in 100 ns of processor time'
expect "JSON" 0 spanprof-record --all --force --json reported.json -- ./llvm
grep -q '"text": "llvm.spanprof"' reported.json || fail "no JSON"
printf '#!/bin/sh\nexec ./llvm\n' > script
chmod +x script
expect "a script" 0 spanprof-record --all -- ./script
expect_recording script
if command -v script > /dev/null; then
    script -qec 'spanprof-record --force -- ./llvm < in' /dev/null > terminal
    grep -q 'spanprof-record: reading llvm.spanprof' terminal || fail "no progress on a terminal"
fi
grep -q reading err && fail "progress where there is no terminal"
echo "options"

expect "five runs" 0 spanprof-record --all --runs 5 --out five -- ./llvm
[ "$(wc -l < out)" = 25 ] || fail "not every run reads standard input"
expect_recording five
expect_word "five runs" 'runs          5, and each cost is that of the run with the median elapsed time'
[ "$(grep -c '"work_ns"' five.spanprof/recording.json)" = 5 ] || fail "five runs: not all are told"
expect "a run that fails" 3 spanprof-record --all --runs 2 --out failing -- ./llvm 3
expect_word "a run that fails" 'run 1 of 2 is the last, and no recording is kept: the program ended with status 3'
[ ! -e failing.spanprof ] || fail "a run that fails: it is kept"
echo "several runs"

mkdir names
cp in names
cd names
expect "a first recording" 0 spanprof-record --all --out mine -- ../llvm
expect_alone "a first recording" in out err mine.spanprof
for number in 2 3; do
    expect "recording $number" 0 spanprof-record --all --out mine -- ../llvm
    expect_word "recording $number" "mine.spanprof is there already: this recording is mine-$number.spanprof (--force replaces"
done
expect "one that replaces it" 0 spanprof-record --all --force --out mine -- ../llvm
expect_alone "one that replaces it" in out err mine.spanprof mine-2.spanprof mine-3.spanprof
for number in 1 2 3 4; do spanprof-record --out once -- ../llvm < in > /dev/null 2>&1 & done
wait
expect_alone "four at once" in out err {mine,mine-2,mine-3,once,once-2,once-3,once-4}.spanprof
OMP_TOOL_LIBRARIES=$top/tools/openmp_recorder/librecorder.so SPANPROF_OUT=mine expect "the library alone" 0 ../llvm
expect_word "the library alone" 'mine-4.spanprof/log'
expect "its text" 0 spanprof-convert mine-4.spanprof
expect_recording mine-4
cd ..
rm -r names
echo "names"

expect "the whole program" 0 spanprof-record --all --out outside --json outside.json -- ./llvm outside
expect_titles "the whole program" 'outside.spanprof, the'
expect_summary "the whole program"
[ "$(grep -c '^program  *[0-9]' err)" = 1 ] || fail "the whole program: how its time divides is told more than once"
expect_recording outside
expect "a program without tasks" 0 spanprof-record --all --out loops -- ./llvm none
expect_titles "a program without tasks" 'loops.spanprof, the'
expect_recording loops
echo "the whole program"

expect "a scale" 0 spanprof-record --all --scale 1,2 --runs 3 --json scale.json --out scaled -- ./llvm
[ "$(wc -l < out)" = 40 ] || fail "a scale: not every run reads standard input"
expect_recording scaled
expect_summary "a scale"
expect_word "a scale" '3 unrecorded runs on each number, in turns: elapsed time of the whole program'
grep -q '^true times *threads .*speedup' err || fail "a scale: no table"
grep -q '"true_one"' scaled.spanprof/recording.json || fail "a scale: no true times for the diagnosis"
for file in scale.json scaled.spanprof/scale.json; do grep -q '"speedup"' $file || fail "a scale: no $file"; done
expect "a failing scale" 3 spanprof-record --all --scale 1,2 --out failing -- ./llvm 3
expect_word "a failing scale" 'spanprof-record: the recorded run ended with status 3: no speedup'
expect "no scale" 2 spanprof-record --all --scale 2,4 -- ./llvm
expect_word "no scale" '2,4: expected 1, the base of the speedup, and another number'
echo "a scale"

expect "another unit" 0 spanprof-convert --unit us llvm.spanprof
expect_word "another unit" 'spanprof-convert: llvm.spanprof/program.tasks and llvm.spanprof/times: '
expect_recording llvm
grep -q '^times 2 0 [0-9]*$' llvm.spanprof/times || fail "no times"
place=$(sed -n '3s/.*,//p' llvm.spanprof/regions)
expect "a region" 0 spanprof-convert --region "$place" --out region llvm.spanprof
"$spanprof" span < region.tasks > counted || fail "region.tasks is refused"
[ -e region.timed ] || fail "a region has no times"
expect "another region" 1 spanprof-convert --region none.c:1 llvm.spanprof
expect_word "another region" "llvm.spanprof: there is no region with tasks at none.c:1; those are at $place"
expect "a part of the run" 0 spanprof-convert --from "$place" --out later llvm.spanprof
expect_recording later
expect "a part without regions" 1 spanprof-convert --from 1000 --out never llvm.spanprof
expect_word "a part without regions" 'no region begins in that part of the run'
expect "the text" 0 spanprof-convert --text llvm.spanprof
cmp -s out llvm.spanprof/program.tasks || fail "the text that is printed is another one"
for tool in report path predict whatif; do
    cp -r llvm.spanprof cut.spanprof
    rm cut.spanprof/times
    asked=(cut.spanprof)
    [ $tool != whatif ] || asked+=(--places)
    expect "spanprof-$tool of one that is cut short" 1 "spanprof-$tool" "${asked[@]}"
    expect_word "spanprof-$tool" "spanprof-$tool: cut.spanprof: the recording is not complete: times is missing; "
    cp two.spanprof/times cut.spanprof
    expect "spanprof-$tool of two runs" 1 "spanprof-$tool" "${asked[@]}"
    expect_word "spanprof-$tool" "cut.spanprof: times is not the file that was recorded: its checksum differs; "
    rm -r cut.spanprof
done
expect "no recording" 1 spanprof-convert none.spanprof
expect_word "no recording" 'spanprof-convert: none.spanprof: no such folder; a recording is the folder NAME.spanprof'
echo "a recording once more"

"clang-$llvm" -g -O1 -fopenmp "$top/checks/agree/large_recordings/program.c" -o many "${llvm_flags[@]}"
expect "a large recording" 0 spanprof-record --all --clock cpu -- ./many tree 13
expect_titles "a large recording" 'many.spanprof, the'
expect_word "a large recording" 'of the recorded text'
expect "a page of it" 0 spanprof-report many.spanprof -o large.html
expect_word "a page of it" 'written: large.html'
# A text is longer than its log, so that a limit between both stands for a full disk.
limit=$(($(du -k many.spanprof/log/* | sort -n | tail -1 | cut -f1) + 100))
(ulimit -f $limit; expect "no room for the text" 125 spanprof-record --out full -- ./many tree 16)
expect_word "no room for the text" 'full.spanprof/program.tasks cannot be written: File too large'
expect_word "no room for the text" 'full.spanprof has the log alone; spanprof-convert makes its text, with --out elsewhere'
expect "a log alone" 1 spanprof-report full.spanprof
expect_word "a log alone" 'the recording is not complete, as it has no recording.json; spanprof-convert full.spanprof writes'
expect "its text elsewhere" 0 spanprof-convert --out elsewhere full.spanprof
[ -e elsewhere.spanprof/program.tasks ] || fail "its text elsewhere"
echo "recordings of any size"

if command -v mpirun > /dev/null && echo "#include <mpi.h>" | mpicc -fsyntax-only -x c - 2> /dev/null; then
    export OMPI_ALLOW_RUN_AS_ROOT=1 OMPI_ALLOW_RUN_AS_ROOT_CONFIRM=1
    mpicc -g -O1 -fopenmp "$top/checks/recorders/record/ranks.c" -o ranks
    expect "a launcher" 0 spanprof-record --all --unit us -- mpirun --oversubscribe -n 3 ./ranks
    expect_word "a launcher" 'other ranks   ranks.rank'
    [ "$(grep -c 'ranks.rank[0-2].spanprof, the whole program' err)" = 3 ] || fail "a launcher: not a line for each rank"
    for rank in 0 1 2; do expect_recording ranks.rank$rank; done
    rm -r ranks.rank*
    expect "a late rank" 0 spanprof-record -- mpirun --oversubscribe -n 3 ./ranks late
    expect_word "a late rank" 'rank  the others wait for rank 1: '
    expect_word "a late rank" 'spanprof-report ranks.rank1.spanprof'
    rm -r ranks.rank*
    expect "ranks" 0 mpirun --oversubscribe -n 3 spanprof-record --all --unit us -- ./ranks
    [ "$(grep -c '^ranks.rank[0-2].spanprof, the whole program' err)" = 3 ] || fail "ranks: not a line for each"
    for rank in 0 1 2; do expect_recording ranks.rank$rank; done
    [ ! -e ranks.spanprof ] || fail "ranks: a recording without a number"
    expect_error 125 '--runs does not support a launcher; use: mpirun -n 4 spanprof-record --runs 5 -- PROGRAM' \
        spanprof-record --runs 2 -- mpirun -n 3 ./ranks
    echo "processes of MPI"
else
    echo "skipped: processes of MPI (package openmpi-bin libopenmpi-dev)"
fi

expect_error 127 './none: no such program' spanprof-record -- ./none
expect_error 127 'llvm: no such program on the PATH; llvm of this folder is ./llvm' spanprof-record -- llvm
expect_error 126 './in: not executable' spanprof-record -- ./in
expect_error 126 '/tmp: is a folder, not a program' spanprof-record -- /tmp
words="./plain has no OpenMP in it: it is linked neither with gcc's runtime (libgomp) nor with LLVM's runtime "
words+='(libomp), and loads no other library or program; was it compiled with -fopenmp?'
expect_error 125 "$words" spanprof-record -- ./plain
words='./static is linked statically, and no recorder can be loaded into it; link it without -static'
expect_error 125 "$words" spanprof-record -- ./static
words="./inside has gcc's runtime (libgomp) inside; link it with the shared library, or compile it with clang"
expect_error 125 "$words" spanprof-record -- ./inside
words='nothing is recorded: the program met no construct of OpenMP'
expect_error 125 "$words" spanprof-record --out never -- ./llvm never
expect_error 125 '--out no/x: there is no folder no' spanprof-record --out no/x -- ./llvm
expect_error 125 '--runtime none: no such file' spanprof-record --runtime none -- ./llvm
expect "wrong words" 2 spanprof-record --all --unit hours -- ./llvm
expect_word "wrong words" 'a unit is ns, us, ms, or nanoseconds up to 1000000000'
SPANPROF_LARGE=/none expect "no program" 125 spanprof-record --all -- ./llvm
expect_word "no program" '/none: No such file or directory'
echo "errors"

echo "$wrong wrong"
[ "$wrong" -eq 0 ]
