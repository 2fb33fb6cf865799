#!/usr/bin/env bash
# Takes libspanprof from out/library, or from a folder that is named, and calls all of it from C and from Python: on all
# examples, at the limits and beyond them, on damaged texts, under AddressSanitizer, with each allocation refused, on
# many threads, and from a wheel. What it answers is compared with the programs. Build these first, and the library by
# tools/library.sh: where it is not built this is skipped. With LIBRARY=build, as after the gate, it is built here; with
# LIBRARY=reference that of the reference implementation is, which takes from outside what Rust's library does.
#
#     checks/agree/library.sh [PROGRAM [FOLDER]]
set -euo pipefail
cd "$(dirname "$0")/../.."
program=$(realpath "${1:-${SPANPROF:-crates/spanprof/out/spanprof}}")
[ -x "$program" ] || { echo "no program $program"; exit 1; }
for tool in cc nm; do command -v "$tool" > /dev/null || { echo "skipped: $tool is missing"; exit 0; }; done
folder=$(mktemp -d)
trap 'rm -rf "$folder"' EXIT
library=$(realpath -m "${2:-out/library}")
case ${LIBRARY:-} in
    build) tools/library.sh "$library" ;;
    reference) command -v rustc > /dev/null || { echo "skipped: rustc is missing"; exit 0; }
        reference/build.sh "$folder/reference" && library=$folder/reference ;;
esac
[ -f "$library/libspanprof.so" ] || { echo "skipped: tools/library.sh has not built the library"; exit 0; }
export SPANPROF_LIBRARY=$library/libspanprof.so
wrong=0
fail() { echo "  $1"; wrong=$((wrong + 1)); }
about=$(PYTHONPATH=tools python3 -B -c 'import spanprof; print("%s, proved: %s" % spanprof.about())')
echo "$about"
case ${LIBRARY:-},${about##* } in build,False | reference,True) fail "the library is not known for what it is" ;; esac

# What it exports is what the header declares, and it takes memory and copies bytes.
sed -n 's/^uint32_t \(spanprof_[a-z_]*\)(.*/\1/p' include/spanprof.h | sort > "$folder/declared"
nm -D --defined-only "$SPANPROF_LIBRARY" | awk '{ print $3 }' | sort > "$folder/exported"
cmp "$folder/declared" "$folder/exported" || fail "other functions than the header's"
[ "${LIBRARY:-}" = reference ] || { nm -D --undefined-only "$SPANPROF_LIBRARY" |
    awk '$1 == "U" { sub(/@.*/, "", $2); print $2 }' |
    grep -vxE 'malloc|realloc|free|mem(cpy|move|set|cmp)|bcmp' && fail "it takes more from outside"; }
for words in 'c -std=c99' 'c++ -std=c++11'; do
    # shellcheck disable=SC2086
    cc -pedantic -Wall -Wextra -Werror -fsyntax-only -x $words include/spanprof.h || fail "the header in $words"
done

# `ask` answers commands by the library: plainly, and under the sanitizers.
flags=(-std=c11 -O1 -g -Wall -Wextra -Wconversion -Werror -Iinclude checks/agree/library/ask.c "$library/libspanprof.a")
cc "${flags[@]}" -o "$folder/ask"
cc "${flags[@]}" -fsanitize=address,undefined -fno-sanitize-recover=all -o "$folder/ask_sanitized"
python3 -B checks/agree/library/compare.py "$program" "$folder/ask" "$folder/ask_sanitized" || fail "it differs"
python3 -B checks/agree/library/others.py "$folder/ask" "$folder/ask_sanitized" "$program" \
    "$(realpath -m "${SPANPROF_LARGE:-crates/spanprof_large/out/spanprof_large}")" || fail "the rest differs"
python3 -B checks/hostile/refused_growths.py library "$folder/ask" > "$folder/output" ||
    { fail "with allocations refused"; cat "$folder/output"; }
tail -n 1 "$folder/output"
(ulimit -s 256 && "$folder/ask" slack < examples/openmp/recorded/cholesky.tasks > /dev/null) || fail "with a stack of 256 KB"
python3 -B checks/agree/library/documented.py "$library" "$folder" || fail "the page's examples"
python3 -B checks/agree/library/wheel.py "$library" "$folder" || fail "the wheel"
echo "$wrong wrong"
[ "$wrong" -eq 0 ]
