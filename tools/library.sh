#!/usr/bin/env bash
# Proves the crate spanprof_c and builds libspanprof of it: out/library/libspanprof.a, and libspanprof.so. Both export
# the functions of include/spanprof.h and nothing else, and take nothing from outside but malloc, realloc, free and
# what copies bytes. libspanprof.so.sha256 is the checksum by which it is known as proved.
#
#     tools/library.sh [FOLDER]      where they go; out/library without it
#
# After the gate, which leaves the libraries below that crate, it proves that crate alone again, in a minute or two. In a
# new clone it proves those below first, in ten minutes or more on four processors. What it has made is taken again while
# no source below crates/ is newer. With MODULE=FILE it also keeps the LLVM module that was compiled.
set -euo pipefail
case ${1:-} in -h | --help) sed -n '2,/^set/{/^set/!s/^# \{0,1\}//p}' "$0"; exit ;; esac
command -v rt > /dev/null || { echo "tools/library.sh needs Rattle's toolchain, rt" >&2; exit 1; }
top=$(cd "$(dirname "$0")/.." && pwd)
out=$(realpath -m "${1:-$top/out/library}")
kit=$(dirname "$(dirname "$(realpath "$(command -v rt)")")")
cc=${CC:-cc}
scratch=$(mktemp -d)
trap 'rm -rf "$scratch"' EXIT

archive=$top/crates/spanprof_c/out/libspanprof_c.a
newer() { find "$top"/crates/*/src "$top"/crates/*/specs "$top"/crates/*/proofs -newer "$archive" -print -quit; }
if [ -n "${MODULE:-}" ] || [ ! -f "$archive" ] || [ -n "$(newer)" ]; then
    python3 -B "$top/tools/static_library.py" spanprof_c "$archive" ${MODULE:+"$MODULE"}
fi
# One object, in which all names but those of the header are its own.
"$cc" -nostdlib -r -o "$scratch/spanprof.o" -Wl,--whole-archive "$archive" \
    "$kit/c/liblibc_c.a" -Wl,--no-whole-archive
objcopy --wildcard --keep-global-symbol='spanprof_*' "$scratch/spanprof.o"
mkdir -p "$out"
rm -f "$out/libspanprof.a"
ar rcs "$out/libspanprof.a" "$scratch/spanprof.o"
"$cc" -shared -Wl,-soname,libspanprof.so.0 -Wl,-z,relro,-z,now -o "$out/libspanprof.so.new" "$scratch/spanprof.o"
mv "$out/libspanprof.so.new" "$out/libspanprof.so"
(cd "$out" && sha256sum libspanprof.so > libspanprof.so.sha256)
