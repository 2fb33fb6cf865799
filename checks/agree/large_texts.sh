#!/usr/bin/env bash
# Pipes texts of more than 4 GB into spanprof_large: a fault behind 2^32 lines, a program with so many bytes of comments,
# and lines that are as long as they may be and one byte longer. Such a line stands behind a fault, so that nothing of it
# is kept. Tells how long each took, all together some minutes. Build spanprof_large first, or let SPANPROF_LARGE name it.
# large_texts.sh [DIVISOR]: all sizes divided, for a quick look at the script itself; then no line is too long.
set -euo pipefail
cd "$(dirname "$0")/../.."
large=${SPANPROF_LARGE:-crates/spanprof_large/out/spanprof_large}
[ -x "$large" ] || { echo "skipped: no program $large; tools/prove_program.sh spanprof_large makes it"; exit 0; }
divisor=${1:-1}
lines=$((4294967296 / divisor)) line=$((4000000000 / divisor)) wrong=0

line_feeds() { yes '' | head -c "$1"; }
comments() { yes '# A comment, which stands on a line of its own' | head -c "$1"; }
zeros() { head -c "$1" /dev/zero; }

behind_many_lines() { echo 'omptasks 1'; line_feeds "$lines"; echo '}'; }
among_comments() {
    echo 'omptasks 1'; echo 'task { work 3 }'
    comments "$lines"; echo
    echo 'work 2 taskwait work 1'
}
longest_line() { echo 'omptasks 3'; echo '}'; zeros "$line"; echo; }
longer_line() { echo 'omptasks 3'; echo '}'; zeros $((line + 1)); echo; }
longest_last_line() { echo 'omptasks 3'; zeros "$line"; }
longer_last_line() { echo 'omptasks 3'; zeros $((line + 1)); }

try() { # TEXT STATUS WORDS: the program's words and its status of what this function writes
    local reported status=0 began=$SECONDS
    # the program need not read all of a text that is too long
    reported=$({ "$1" 2> /dev/null || true; } | "$large") || status=$?
    echo "$1: $reported, status $status, $((SECONDS - began)) s"
    [ "$reported" = "$3" ] && [ "$status" = "$2" ] || { echo "  wanted: $3, status $2"; wrong=1; }
}

header='error: line 1: BadHeader' long='error: input too long'
[ "$divisor" = 1 ] || long=$header
try behind_many_lines 1 "error: line $((lines + 2)): Unopened"
try among_comments 0 $'tasks 1\nsegments 4\nwork 6\nspan 4'
try longest_line 1 "$header"
try longer_line 1 "$long"
try longest_last_line 1 "$header"
try longer_last_line 1 "$long"
exit $wrong
