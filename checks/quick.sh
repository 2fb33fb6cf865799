#!/usr/bin/env bash
# Runs the checks of the documents, of the files of definitions and proofs, of the Python, and of the model of waiting
# against the sources, and the unit tests of the scripts and tools, as many at once as there are processors. It needs
# neither the program nor a compiler, and half a minute. It prints a line for each, and what a check printed where it
# failed; the status is 0 where none did.
#
#     checks/quick.sh                       all of them
#     checks/quick.sh --changed [COMMIT]    those that the changes since a commit concern (origin/main), committed or not:
#                                           what is left out reads no changed file and imports none. CI runs all.
set -uo pipefail
cd "$(dirname "$0")/.." || exit 1
unset SPANPROF SPANPROF_LARGE   # no check here asks a program
changed=
if [ "${1:-}" = --changed ]; then
    [ "${CI:-}" != true ] || { echo "CI runs all checks, without --changed"; exit 2; }
    base=$(git merge-base "${2:-origin/main}" HEAD) || exit 2
    changed=$(git diff --name-only "$base"; git ls-files --others --exclude-standard)
    changed=${changed:-no change}
    ! grep -qE '^checks/(quick\.sh|unit_tests\.py|sources/reached\.py)$' <<< "$changed" || changed=   # then all are
fi
declare -A reached=()   # files that the changes concern by their imports
if [ -n "$changed" ]; then
    found=$(python3 -B checks/sources/reached.py <<< "$changed") || exit 2
    while read -r file; do reached[${file:-none}]=1; done <<< "$found"
fi
count=0
answers=$(mktemp -d)
trap 'rm -rf "$answers"' EXIT

# answer NAME WORD..: runs the words, which have to end with status 0.
answer() {
    local name=$1 reported
    shift
    if reported=$("$@" 2>&1); then
        case $reported in 'skipped: '*) echo "skipped $name: ${reported#skipped: }" ;; *) echo "ok      $name" ;; esac
    else
        printf 'FAILED  %s\n%s\n' "$name" "$reported"
    fi
}

# reads PATTERN: what the checks that follow read: they run where a changed file matches, or all are asked for.
reads() { if [ -z "$changed" ] || grep -qE "$1" <<< "$changed"; then wanted=1; else wanted=; fi; }

# concerned FILE ..: whether the changes concern one of these by its imports, or all are asked for.
concerned() {
    local file
    [ -n "$changed" ] || return 0
    for file; do [ -z "${reached[$file]:-}" ] || return 0; done
    return 1
}

# passes NAME WORD..: begins to run the words, as soon as there is a processor for it, where they are wanted or concerned.
passes() {
    [ -n "$wanted" ] || concerned "${@:2}" || return 0
    while [ "$(jobs -rp | wc -l)" -ge "$(nproc)" ]; do wait -n; done
    count=$((count + 1))
    answer "$@" > "$answers/$count" &
}

# these PATTERN WORD..: the words, or where changes are asked for the changed files of the pattern.
these() {
    if [ -z "$changed" ]; then echo "${@:2}"; else grep -E "$1" <<< "$changed" | sort -u | xargs -r ls -d 2> /dev/null; fi
}

# installed WORD..: the words pass, or the command is missing, whose package has its name.
installed() {
    if command -v "$1" > /dev/null; then passes "$1" "$@"; else passes "$1" echo "skipped: it is missing (package $1)"; fi
}

# no_symbolic_links: the gate refuses a checkout that has one.
no_symbolic_links() { ! git ls-files -s | grep '^120000'; }

tests=()
while read -r test; do ! concerned "$test" || tests+=("$test"); done < <(find tools checks bench -name 'test_*.py')
wanted=${tests:+1}
passes unit_tests.py python3 -B checks/unit_tests.py "${tests[@]}"
wanted=1
passes no_symbolic_links no_symbolic_links
for script in version sentences links speed_numbers places; do   # which read files of all kinds
    passes "$script.py" python3 -B "checks/sources/$script.py"
done
reads '\.py$|^tools/spanprof-'
passes style.py python3 -B checks/sources/style.py
passes imports.py python3 -B checks/sources/imports.py
read -rd '' -a files < <(these '\.py$' tools checks bench examples)
if [ ${#files[@]} -gt 0 ]; then
    installed pyflakes3 "${files[@]}"
    # E402 is an import below sys.path, and style.py looks at long lines.
    installed pycodestyle --ignore=E126,E402,E501,W291,W503,W504 "${files[@]}"
fi
# What nothing but tests uses, apart from names that Python, argparse or a table of methods calls, and of programs that
# are kept for what was measured.
installed vulture --exclude '*/tests/*,*test_*.py' tools checks bench examples \
    --ignore-names 'write_*,dont_write_bytecode,__getattr__,namespace,option_string'
reads '^crates|^docs/|^README\.md$|^checks/edits/'
for script in definitions proof_map; do
    passes "$script.py" python3 -B "checks/sources/$script.py" --check
done
for script in crate_picture signatures clauses believed_lines left_edits limits repeated_lines waiting/lines; do
    passes "$script.py" python3 -B "checks/sources/$script.py"
done
reads '\.md$|^tools/'
passes retired_words.py python3 -B checks/sources/retired_words.py
reads '\.sh$|^demo$|^\.ci/'
read -rd '' -a files < <(these '\.sh$|^demo$|^\.ci/run$' demo .ci/run "$(git ls-files '*.sh')")
[ ${#files[@]} -eq 0 ] || installed shellcheck -S warning "${files[@]}"
reads '^tools/openmp_recorder/.*pp$'
passes cpp_format.sh checks/sources/cpp_format.sh
wait
failed=()
for ((number = 1; number <= count; number++)); do
    if grep -qs '^FAILED  ' "$answers/$number"; then failed+=("$answers/$number"); else cat "$answers/$number"; fi
done
[ ${#failed[@]} -eq 0 ] || { cat "${failed[@]}"; exit 1; }
