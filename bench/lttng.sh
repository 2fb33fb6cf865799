#!/usr/bin/env bash
# Compares what recording costs with a tool that hands the same events to LTTng-UST, which a session keeps meanwhile:
# lttng.sh [RUNS]. The tool is "the other recorder" of recording.sh; gcc's runtime does not call it. Needs lttng-tools and
# liblttng-ust-dev, and no other session daemon.
set -euo pipefail
# shellcheck source=bench/common.sh
. "$(dirname "$0")/common.sh"
# shellcheck source=checks/llvm.sh
. "$top/checks/llvm.sh"
find_llvm || { echo "$no_llvm" >&2; exit 1; }
"clang-$llvm" -O2 -shared -fPIC "-I$top/bench/recording/lttng" "$top/bench/recording/lttng/tool.c" -o "$scratch/tool.so" \
    "${llvm_flags[@]}" -llttng-ust -ldl
lttng-sessiond --background --no-kernel --pidfile "$scratch/daemon" > "$scratch/daemon.log" 2>&1
trap 'lttng --quiet destroy bench || true; kill "$(cat "$scratch/daemon")"; rm -rf "$scratch"' EXIT
lttng --quiet create bench --output "$scratch/trace"
lttng --quiet enable-channel --userspace --num-subbuf 8 --subbuf-size 4M events
lttng --quiet enable-event --userspace --channel events 'tasks:*'
lttng --quiet start
LTTNG_UST_REGISTER_TIMEOUT=-1 "$top/bench/recording.sh" "${1:-10}" "$scratch/tool.so"
lttng --quiet stop
lttng list bench 2>&1 | grep Discarded || true
