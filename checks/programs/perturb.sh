#!/usr/bin/env bash
# Delays inside libgomp, built from its source with -fsanitize=thread: a race of mutants/races that runs without delays
# do not show has to be caught, its report has to name a place of the runtime, and the runtime as it is must not be
# accused. Build spanprof first, or name it in SPANPROF. Skipped where the package gcc-12-source is missing and ARCHIVE
# names no source.
#
#     checks/programs/perturb.sh [FOLDER]    FOLDER keeps the libraries, so that a second call builds none
set -euo pipefail
cd "$(dirname "$0")/../.."
# shellcheck source=checks/needs.sh
. checks/needs.sh
needs_spanprof
mutant=event-looked-at-unlocked
temporary=$(mktemp -d)
trap 'rm -rf "$temporary"' EXIT
folder=${1:-$temporary}
cc -O2 -fPIC -shared -Wall -Wextra -Werror tools/conformance/perturb/*.c -o "$temporary/perturb.so"
if [ ! -f "$folder/none.so" ]; then
    [ -n "${ARCHIVE:-}" ] || compgen -G '/usr/src/gcc-*/gcc-*.tar.xz' > /dev/null ||
        skip "the source of libgomp is missing (package gcc-12-source)"
    checks/programs/mutants/build.py gomp "$folder" "$mutant" --patches checks/programs/mutants/races \
        --flags=-fsanitize=thread ${ARCHIVE:+--archive "$ARCHIVE"}
fi
wrong=0
fail() { echo "  $1"; wrong=$((wrong + 1)); }

tried() { # LIBRARY SEEDS: tries it with delays by so many seeds for each program
    local preload=$folder/$1.so
    [ "$2" != 0 ] || preload="$temporary/perturb.so $preload"
    tools/spanprof-conformance run --cc gcc --preload "$preload" --perturb "$2" --match 'detach*' --tasks tied \
        --threads 4 --settings free --programs 0 --timeout 5 --seconds 300 --keep "$temporary/kept" \
        --report "$temporary/report.md" > "$temporary/out.txt"
}

tried none 12 || { cat "$temporary/out.txt"; fail "the runtime as it is is accused"; }
tried "$mutant" 0 || fail "the race shows without delays: another one is needed here"
tried "$mutant" 12 && fail "the race is not caught"
grep -qE '^Threads were delayed .*(before|after) [a-z]+\.[ch]:[0-9]+ \(.* by seed [0-9]+\.$' "$temporary/report.md" ||
    { cat "$temporary/report.md"; fail "the report does not name the place"; }
grep -qF 'PERTURB=' "$temporary"/report-1.c || fail "the C file does not say how it is delayed"
echo "$wrong wrong"
[ "$wrong" -eq 0 ]
