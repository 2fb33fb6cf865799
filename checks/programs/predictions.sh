#!/usr/bin/env bash
# Judges what tools/spanprof-predict predicts of 37 programs on the times that they took, then of 16 changes that were
# made to programs, and of eight programs with gcc's runtime. All that was measured lies in checks/programs/predictions.
# It runs none of them, and needs neither the program nor a compiler; some three minutes of processor time.
#
#     checks/programs/predictions.sh [--table]     --table: a row for each prediction
failed=0
for judge in judge judge_changes; do
    python3 -B "$(dirname "$0")/predictions/$judge.py" "$@" || failed=1
done
exit $failed
