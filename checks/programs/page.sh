#!/usr/bin/env bash
# Tries tools/spanprof-report: its unit tests; then for each example, each recorded text, a text at the limits and,
# where clang and LLVM's OpenMP runtime are there, each program of docs/TUNING.md recorded anew, programs that are slow
# for a known cause, and one with call paths and as a whole: the page is made, each of its numbers is compared with
# spanprof's answers, its first words with that cause, and it is opened in Chromium: errors, sizes, looks in light, dark,
# narrow, wide and print, keys, mouse and fingers. One program is measured on several numbers of threads. Then the page of
# a million tasks, where spanprof_large is there. Build spanprof first.
#
#     checks/programs/page.sh [PROGRAM [FOLDER]]    instead of crates/spanprof/out/spanprof; where pages and pictures go
#     checks/programs/page.sh kept                  only pages of texts that lie here, of which three are opened
set -euo pipefail
cd "$(dirname "$0")/../.."
# shellcheck source=checks/llvm.sh
. checks/llvm.sh
only_kept=
[ "${1:-}" != kept ] || { only_kept=1; shift; set -- "${SPANPROF:-crates/spanprof/out/spanprof}"; }
program=$(realpath "${1:-crates/spanprof/out/spanprof}")
[ -x "$program" ] || { echo "no program $program"; exit 1; }
export SPANPROF=$program
large=crates/spanprof_large/out/spanprof_large    # where it is there, pages of recordings have the account
[ -n "${SPANPROF_LARGE:-}" ] || [ ! -x "$large" ] || export SPANPROF_LARGE=$PWD/$large
if [ $# -gt 1 ]; then
    folder=$(realpath -m "$2")
    mkdir -p "$folder"
else
    folder=$(mktemp -d)
    trap 'rm -rf "$folder"' EXIT
fi
wrong=0
fail() { echo "  $1"; wrong=$((wrong + 1)); }

kept_answers() {
    (cd tools && python3 -m spanprof.report.tests.worked check) ||
        fail "spanprof answers otherwise than the unit tests have it"
}

record() { # NAME CLOCK WORD ..: a program of examples/openmp, which `compile` has made
    local name=$1 clock=$2
    shift 2
    SPANPROF_QUIET=1 OMP_TOOL_LIBRARIES=$PWD/tools/openmp_recorder/librecorder.so OMP_NUM_THREADS=4 SPANPROF_UNIT=us \
        SPANPROF_CLOCK=$clock SPANPROF_OUT=$folder/$name-$clock "$folder/$name" "$@" > "$folder/said" 2>&1 ||
        fail "$name cannot be recorded: $(tail -1 "$folder/said")"
    SPANPROF_UNIT=us SPANPROF_TIMES=1 checks/llvm/texts.py "$folder/$name-$clock" > "$folder/said" 2>&1 ||
        fail "$name cannot be converted: $(tail -1 "$folder/said")"
}

record_all() { # the programs of docs/TUNING.md, by both clocks
    make -s -C tools/openmp_recorder LLVM="$llvm"
    while read -r name words; do
        "clang-$llvm" -O2 -g -fopenmp "examples/openmp/$name.c" -o "$folder/$name" -lm "${llvm_flags[@]}"
        # shellcheck disable=SC2086
        for clock in wall cpu; do record "$name" $clock $words; done
    done <<'PROGRAMS'
merge_sort
merge_sort_split
wavefront
wavefront_overlapped
fibonacci 27 16
cholesky 4
PROGRAMS
}

record_causes() { # programs of checks/programs/causes as their users would, with the page
    for cause in serial dependence wait lock; do
        "clang++-$llvm" -O2 -g -fopenmp "checks/programs/causes/$cause.cpp" -o "$folder/$cause" "${llvm_flags[@]}"
        (cd checks/programs/causes && ../../../tools/spanprof-record --out "$folder/cause_$cause" --threads 4 \
            -- "$folder/$cause") > /dev/null 2> "$folder/cause_$cause.said" ||
            fail "$cause cannot be recorded: $(tail -1 "$folder/cause_$cause.said")"
        tools/spanprof-report "$folder/cause_$cause.spanprof" --source checks/programs/causes > /dev/null ||
            fail "$cause has no page"
    done
    checks/programs/page/first_screens.py "$folder" cause_serial cause_dependence cause_wait cause_lock ||
        fail "first screens"
}

record_scale() { # a small program on several numbers of threads; it is one of the texts then
    tools/spanprof-record --scale 1,2,4 --runs 2 --out "$folder/scaled" --unit us -- "$folder/cholesky" 4 \
        > "$folder/said" 2>&1 || fail "no scale is recorded: $(tail -1 "$folder/said")"
    page_of_recording scaled "$folder/scaled.spanprof"
    visit "$folder" scaled
}

page_of_recording() { # NAME RECORDING [OPTION ..]: its page, and its numbers
    tools/spanprof-report "$2" -o "$(dirname "$2")/$1.html" "${@:3}" || { fail "$1 has no page"; return; }
    (cd tools && python3 -m spanprof.report.tests.compare "$(dirname "$2")/$1.html" "$2/program.tasks") \
        > "$folder/compared" || { fail "$1:"; head -20 "$folder/compared"; }
    echo "$1: $(tail -1 "$folder/compared"), $(wc -c < "$(dirname "$2")/$1.html") bytes"
}

several_regions() { # a program of 121 regions at three places, with its page, as its users would
    mkdir -p "$folder/several"
    "clang-$llvm" -O2 -g -fopenmp checks/programs/page/regions.c -o "$folder/regions" "${llvm_flags[@]}"
    tools/spanprof-record --out "$folder/several/regions" --unit us --threads 4 \
        -- "$folder/regions" > "$folder/said" 2>&1 || fail "regions cannot be recorded: $(tail -1 "$folder/said")"
    page_of_recording regions "$folder/several/regions.spanprof"
    visit "$folder/several" regions
}

callers_and_whole() { # a program whose tasks have several callers
    mkdir -p "$folder/callers"
    "clang-$llvm" -O1 -g -fopenmp checks/programs/page/callers.c -o "$folder/callers/callers" "${llvm_flags[@]}"
    (cd "$folder/callers" && "$OLDPWD/tools/spanprof-record" --call-paths --unit us --threads 4 -- ./callers) \
        > "$folder/said" 2>&1 || fail "callers cannot be recorded: $(tail -1 "$folder/said")"
    page_of_recording callers "$folder/callers/callers.spanprof" --source checks/programs/page
    checks/programs/page/worded.py "$folder/callers" || fail "words of the page on callers"
    visit "$folder/callers" callers
}

visit() { # FOLDER NAME ..
    local status=0
    checks/programs/page/visit.py "$program" "$@" || status=$?
    if [ $status = 2 ]; then echo "skipped: no page is opened"; elif [ $status != 0 ]; then fail "pages in the browser"; fi
}

large_page() { # where spanprof_large is built
    local large=${SPANPROF_LARGE:-crates/spanprof_large/out/spanprof_large} status=0
    [ -x "$large" ] || { echo "skipped: no page of a million tasks: no program $large"; return; }
    SPANPROF_LARGE=$(realpath "$large") checks/programs/page/large_page.py "$folder" || status=$?
    if [ $status = 1 ]; then fail "the page of a million tasks"; fi
    rm -f "$folder"/million.*
}

make_page() { # NAME: the page of a text of the folder, and its numbers
    local name=$1
    tools/spanprof-report "$folder/$name.tasks" -o "$folder/$name.html" --source examples/openmp ||
        { fail "$name has no page"; return; }
    (cd tools && python3 -m spanprof.report.tests.compare "$folder/$name.html" "$folder/$name.tasks") \
        > "$folder/compared" || { fail "$name:"; head -20 "$folder/compared"; }
    echo "$name: $(tail -1 "$folder/compared"), $(wc -c < "$folder/$name.html") bytes"
}

kept_answers
cp examples/*.tasks "$folder"
for text in examples/openmp/recorded/*.tasks; do cp "$text" "$folder/kept_$(basename "$text")"; done
checks/programs/page/large_text.py "$folder"
[ -n "$only_kept" ] || large_page
if [ -n "$only_kept" ]; then
    echo "no program is recorded"
elif find_llvm; then
    record_all
    record_causes
    record_scale
    several_regions
    callers_and_whole
else
    echo "skipped: no program is recorded: $no_llvm"
fi

names=()
for text in "$folder"/*.tasks; do names+=("$(basename "$text" .tasks)"); done
TIMEFORMAT="large: the page took %R seconds, and %U of processor time"
for name in "${names[@]}"; do
    [ "$name" = large ] || make_page "$name"
done
time tools/spanprof-report "$folder/large.tasks" -o "$folder/large.html" 2> /dev/null
make_page large
if [ -n "$only_kept" ]; then names=(kept_merge_sort kept_wavefront large); fi
visit "$folder" "${names[@]}"
echo "$wrong wrong"
[ "$wrong" -eq 0 ]
