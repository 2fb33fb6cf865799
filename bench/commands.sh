#!/usr/bin/env bash
# Times the commands and the reference implementation, which prints the same, on the texts of make_texts.py, and compares what
# both print there. The times are the processor's, of user and system, in milliseconds, the best
# of five (of RUNS, if that is set), and the two programs run in turns; the memory is the peak, in MiB.
#
#     bench/commands.sh [TEXT..]      PROGRAM names the program, if it is built
#     bench/commands.sh scaling       wall time of curve and check on one processor and on four
#     bench/commands.sh changes       the time of one change of `whatif`
#     bench/commands.sh where         where the time goes, by perf: reading, cutting, kept edges, ..
set -euo pipefail
# shellcheck source=bench/common.sh
. "$(dirname "$0")/common.sh"
build_program
make_texts
build_reference
python3 "$top/bench/commands.py" "$PROGRAM" "$reference" "$scratch" "$@"
