#!/usr/bin/env bash
# Runs what the gate does not see: checks/quick.sh, and the checks of the tools that record programs, each with a limit
# of time. `.ci/run` calls it after the gate, with the program that the gate left. A check whose compiler or runtime
# is missing is skipped, and counted as skipped. LLVM is the newest that is here, or the version in LLVM. Where it runs
# as root with CI=true it installs the distribution's packages first: of LLVM, where none is here, the newest version of
# those that were tried. Where one is installed, a check that misses it, or a part of one, fails.
#
#     checks/tools.sh    its last line is `N passed, M failed, K skipped, T second tries`; the status is 0 where M is 0
set -uo pipefail
cd "$(dirname "$0")/.." || exit 1
export SPANPROF=${SPANPROF:-$PWD/crates/spanprof/out/spanprof}
export SPANPROF_LARGE=${SPANPROF_LARGE:-$PWD/crates/spanprof_large/out/spanprof_large}
export SPANPROF_MACHINE=/none   # what commands print does not hang on whether this machine has been calibrated
passed=0 failed=0 skipped=0 second_tries=0
installed='$^'   # what a check that is skipped may not miss

llvm_packages() { # of the version in LLVM, or of the first of those that were tried which the distribution has
    local version
    for version in ${LLVM:-19 16 14}; do
        if apt-cache show "libomp-$version-dev" > /dev/null 2>&1; then
            echo "clang-$version libomp-$version-dev"
            return
        fi
    done
}

install() { DEBIAN_FRONTEND=noninteractive timeout 900 apt-get install -y "$@" > /dev/null 2>&1; }

install_packages() { # without a word where all are there, and none where they cannot be had
    local missing llvm_is_here=0
    [ "${CI:-}" = true ] && [ "$(id -u)" = 0 ] || return 0
    missing=$(for it in g++ make binutils; do dpkg -s "$it" > /dev/null 2>&1 || echo "$it"; done)
    checks/llvm/versions.py ${LLVM:+"$LLVM"} > /dev/null && llvm_is_here=1
    if [ -n "$missing" ] || [ $llvm_is_here = 0 ]; then
        timeout 300 apt-get update > /dev/null 2>&1
        [ $llvm_is_here = 1 ] || missing+=" $(llvm_packages)"
        # shellcheck disable=SC2086
        install $missing || { echo "not installed: $missing"; return 0; }
    fi
    ! checks/llvm/versions.py ${LLVM:+"$LLVM"} > /dev/null || installed='packages? (g\+\+|gcc|make|binutils|clang-[0-9])'
    for it in pycodestyle pyflakes3 shellcheck vulture clang-format-14; do
        if dpkg -s "$it" > /dev/null 2>&1 || install "$it"; then installed+="|package $it"; fi
    done
}

# one SECONDS NAME WORD..: runs the words and reports what came of it, with the end of what they printed where they
# failed. Their last line may say that they were skipped, and lines `skipped WHAT` or `again WHAT` which part was, or had a
# second try. The seconds end what hangs: a busy machine takes ten times as long as a quiet one.
one() {
    local name=$2 began=$SECONDS status=0 printed last
    printed=$(timeout "$1" "${@:3}" 2>&1) || status=$?
    last=${printed##*$'\n'}
    second_tries=$((second_tries + $(grep -c '^again ' <<< "$printed")))
    skipped=$((skipped + $(grep -c '^skipped ' <<< "$printed")))
    grep -E '^(again|skipped) ' <<< "$printed"
    if [ "$status" -ne 0 ] || grep -E '^skipped:? ' <<< "$printed" | grep -qE "$installed"; then
        printf '%s\n' "$printed" | tail -n 30
        printf 'FAILED  %s (status %s), %s s\n' "$name" "$status" $((SECONDS - began))
        failed=$((failed + 1))
    elif [[ $last == 'skipped: '* ]]; then
        printf 'skipped %s: %s\n' "$name" "${last#skipped: }"
        skipped=$((skipped + 1))
    else
        printf 'ok      %s, %s s\n' "$name" $((SECONDS - began))
        passed=$((passed + 1))
    fi
}

install_packages
one 900 quick.sh checks/quick.sh
one 600 compiles.sh checks/sources/compiles.sh
one 600 examples.sh checks/agree/examples.sh
one 600 documents.py checks/agree/documents.py
one 900 one_command.py checks/programs/one_command.py
one 300 exclusion.py checks/agree/exclusion.py
one 600 reference.py checks/agree/reference.py
one 1800 openmp_cases.sh checks/recorders/openmp_cases.sh
one 900 record.sh checks/recorders/record.sh
one 900 recorded_accounts.sh checks/recorders/recorded_accounts.sh
one 900 killed_runs.sh checks/recorders/killed_runs.sh
one 1200 demo.sh checks/programs/demo.sh
one 600 not_verified.sh checks/programs/not_verified.sh
one 600 release.sh checks/programs/release.sh
one 1800 'true_words.sh counted' checks/recorders/true_words.sh counted
one 900 predictions.sh checks/programs/predictions.sh
one 900 'page.sh kept' checks/programs/page.sh kept
one 900 'conformance.sh short' checks/programs/conformance.sh short
one 600 'whatif.sh kept' checks/programs/whatif.sh kept
one 900 openmp.sh checks/recorders/openmp.sh
one 900 'causes.sh kept' checks/programs/causes.sh kept
one 2400 library.sh checks/agree/library.sh
one 2400 'library.sh of the reference' env LIBRARY=reference checks/agree/library.sh
one 900 'openmp_regions.sh 20' checks/recorders/openmp_regions.sh 20
echo "$passed passed, $failed failed, $skipped skipped, $second_tries second tries"
[ "$failed" -eq 0 ]
