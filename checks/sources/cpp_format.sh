#!/usr/bin/env bash
# Compares the layout of C++ with what clang-format makes of it by tools/.clang-format.
#
#     checks/sources/cpp_format.sh [--write] [FOLDER ..]     --write lays the files out; where none is named, those of
#                                                            tools/openmp_recorder
#
# Other versions of clang-format lay out some lines otherwise, so it is skipped where version 14 is missing.
set -euo pipefail
cd "$(dirname "$0")/../.."
how=(--dry-run --Werror)
if [ "${1:-}" = --write ]; then how=(-i) && shift; fi
[ $# -gt 0 ] || set -- tools/openmp_recorder
for format in clang-format-14 clang-format ''; do
    if command -v "${format:-true}" > /dev/null && [[ -z $format || $("$format" --version) == *" 14."* ]]; then break; fi
done
[ -n "$format" ] || { echo "skipped: clang-format 14 is missing (package clang-format-14)"; exit 0; }
find "$@" \( -name '*.cpp' -o -name '*.hpp' \) -print0 | sort -z | xargs -0 "$format" "${how[@]}"
