#!/usr/bin/env bash
# Explores every interleaving of the waiting of workers, in the model checks/sources/waiting/waiting.pml: 1 worker and 2 with up
# to 6 segments; 3 with up to 4 where no lane is passed over, and up to 3 where lanes are; 4 with up to 2. Nobody may
# sleep for ever, nor after the end, nor be passed over while a token lies in a lane and all others are in their
# kernels; and every run ends, unless the system wakes a worker for no reason for ever. Each wrong form of the model
# must fail. First it looks whether the model still stands for the code. It needs python3, spin and a C compiler, 8 GB
# of memory, and some 26 minutes of one processor.
set -euo pipefail
cd "$(dirname "$0")/waiting"
python3 -B test_lines.py 2> /dev/null || { echo "FAILED: test_lines.py"; exit 1; }
python3 -B lines.py
for need in spin cc; do
    command -v "$need" > /dev/null || { echo "skipped: there is no $need"; exit 0; }
done
model=$PWD/waiting.pml
folder=$(mktemp -d)
trap 'rm -rf "$folder"' EXIT
cd "$folder"

# explore KIND NAMES.. : builds the model with these names defined and explores it, for its states or for its cycles
explore() {
    local kind=$1 build=-DSAFETY search=
    shift
    if [ "$kind" = cycles ]; then build=-DNP search=-l; fi
    rm -f pan* ./*.trail
    spin "${@/#/-D}" -a "$model" > made
    cc -O2 -DCOLLAPSE -DNOFAIR "$build" -o pan pan.c
    ./pan $search -m1000000 -w26 -n > output
    if grep -q 'search depth too small\|out of memory' output; then cat output; exit 1; fi
    errors=$(sed -n 's/.*errors: //p' output)
    stored=$(awk '/states, stored/ { print $1 }' output)
}

has_none() {
    explore "$@"
    echo "$*: $stored states, $errors errors"
    if [ "$errors" != 0 ]; then echo FAILED; exit 1; fi
}

# must_hold NAMES.. : no state is wrong, and every run ends
must_hold() {
    has_none states "$@"
    has_none cycles "$@"
}

# spurious NAMES.. : no state is wrong, where the system may wake a worker for no reason; it may do so for ever
spurious() {
    has_none states "$@" SPURIOUS
}

must_fail() {
    explore states "$@"
    echo "$*: refused after $stored states"
    if [ "$errors" = 0 ]; then echo "FAILED: a wrong form is not found out"; exit 1; fi
}

for wrong in FLAG_FIRST COUNT_LAST SILENT_END ASLEEP_FIRST PASSED_AS_EMPTY; do
    must_fail WORKERS=2 SEGMENTS=3 FAULTS=0 "$wrong"
    must_fail WORKERS=3 SEGMENTS=3 FAULTS=0 "$wrong"
done
must_fail WORKERS=2 SEGMENTS=4 FAULTS=0 BUSY_AS_IDLE
must_fail WORKERS=3 SEGMENTS=4 FAULTS=0 PATIENCE=0 ONE_WOKEN
for segments in 1 2 3 4 5 6; do
    must_hold WORKERS=1 SEGMENTS=$segments FAULTS=2
    must_hold WORKERS=2 SEGMENTS=$segments FAULTS=2
done
spurious WORKERS=2 SEGMENTS=4 FAULTS=2
for segments in 1 2 3; do
    must_hold WORKERS=3 SEGMENTS=$segments FAULTS=1 PATIENCE=0
done
must_hold WORKERS=3 SEGMENTS=4 FAULTS=0 PATIENCE=0
spurious WORKERS=3 SEGMENTS=3 FAULTS=0 PATIENCE=0
for segments in 1 2; do
    must_hold WORKERS=3 SEGMENTS=$segments FAULTS=1
done
must_hold WORKERS=3 SEGMENTS=3 FAULTS=0
spurious WORKERS=3 SEGMENTS=2 FAULTS=0
must_hold WORKERS=4 SEGMENTS=1 FAULTS=1 PATIENCE=0
must_hold WORKERS=4 SEGMENTS=2 FAULTS=0 PATIENCE=0
echo "all interleavings explored: nobody sleeps for ever, and each wrong form is refused"
