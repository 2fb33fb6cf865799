# shellcheck shell=bash
# Sourced by the scripts of this folder: $top is the repository, and $scratch a folder that is removed at the end.
top=$(cd "$(dirname "${BASH_SOURCE[0]}")/.." && pwd)
scratch=$(mktemp -d)
trap 'rm -rf "$scratch"' EXIT

# build_program: spanprof is $PROGRAM; where none is named, it is proved and built.
build_program() {
    [ -z "${PROGRAM:-}" ] || return 0
    "$top/tools/prove_program.sh" > "$scratch/told" 2>&1 || { cat "$scratch/told" >&2; exit 1; }
    PROGRAM=$top/crates/spanprof/out/spanprof
}

# build_reference: the reference implementation is $reference and ${reference}_large.
build_reference() {
    "$top/reference/build.sh" "$scratch/reference"
    export reference=$scratch/reference/spanprof
}

# make_texts: the programs near each limit, as $scratch/texts/NAME.tasks and NAME.replay.
make_texts() { python3 "$top/bench/make_texts.py" "$scratch/texts"; }
