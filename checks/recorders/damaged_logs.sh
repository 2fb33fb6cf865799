#!/usr/bin/env bash
# Damages logs of the recorder at random, on LLVM's runtime and on gcc's, and converts them by a converter that the
# compiler has put checks of memory and arithmetic into (damaged_logs/damaged.py). Each is refused with a word, or becomes
# texts that spanprof takes. Then it damages the files of a recording, which spanprof-report reads
# (damaged_logs/readers.py). damaged_logs.sh [COUNT]: 300 of each without it. Build spanprof first. SEED: the damage; KEEP:
# a folder for what failed.
set -euo pipefail
cd "$(dirname "$0")/../.."
# shellcheck source=checks/needs.sh
. checks/needs.sh
needs_llvm
needs_spanprof
make -s -C tools/openmp_recorder LLVM="$llvm" librecorder.so convert_log_checked
for runtime in llvm gnu; do
    RUNTIME=$runtime python3 checks/recorders/damaged_logs/damaged.py tools/openmp_recorder/convert_log_checked "${1:-300}"
done
python3 checks/recorders/damaged_logs/readers.py "${1:-300}"
