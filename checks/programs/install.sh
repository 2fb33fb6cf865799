#!/usr/bin/env bash
# Installs on a fresh prefix by `make -C tools install`, and runs everything from there, with nothing else of the
# repository on the PATH: the program, a recording, a page, the tester, man pages, completion. Then takes it away, and
# sees that nothing stays. Build spanprof first. Another program than crates/spanprof/out/spanprof may be named.
set -euo pipefail
cd "$(dirname "$0")/../.."
# shellcheck source=checks/llvm.sh
. checks/llvm.sh
top=$PWD
spanprof=$(realpath "${1:-crates/spanprof/out/spanprof}")
[ -x "$spanprof" ] || { echo "no program $spanprof"; exit 1; }
find_llvm || { echo "skipped: $no_llvm"; exit 0; }
folder=$(mktemp -d)
trap 'rm -rf "$folder"' EXIT
prefix=$folder/usr/local
wrong=0
fail() { echo "  $1"; wrong=$((wrong + 1)); }
make_in_tools() { make -s -C tools SPANPROF="$spanprof" "$@"; }
installed() { env -i HOME="$folder" PATH="$prefix/bin:/usr/bin:/bin" OMP_NUM_THREADS=2 "$@"; }
list() { (cd "$1" && find . | sort); }

# A word where the program is not built, and where the prefix is none.
make -s -C tools SPANPROF="$folder/none" install PREFIX="$prefix" 2> "$folder/output" && fail "no program is installed"
grep -q 'none: no such program; ./demo builds one' "$folder/output" || fail "no word of the program"
make_in_tools install PREFIX=usr 2> "$folder/output" && fail "a prefix that is no whole path is taken"
grep -q "PREFIX is a whole path" "$folder/output" || fail "no word of the prefix"
[ ! -e "$folder/usr" ] || fail "something is installed"

mkdir -p "$folder/usr"
make_in_tools install PREFIX="$prefix"
list "$prefix" > "$folder/before"
cd "$folder"
echo 'omptasks 1 work 5 task { work 3 } work 2 taskwait work 1' > worked.tasks
[ "$(installed spanprof span < worked.tasks | tr '\n' ' ')" = "segments 4 work 11 span 9 " ] || fail "spanprof"
gcc -g -O1 -fopenmp "$top/checks/recorders/record/program.c" -o mine
installed spanprof-record -- ./mine < worked.tasks > printed 2> output || fail "spanprof-record fails"
cmp -s worked.tasks printed || fail "the program's standard output"
grep -q '^mine: .* on [0-9]* threads of gcc' output && grep -q '^sure  1 run' output || { fail "no diagnosis"; cat output; }
installed spanprof-report mine.spanprof -o mine.html --trace mine.json || fail "spanprof-report fails"
grep -q '</html>' mine.html || fail "no page"
installed spanprof-conformance run --cc gcc --tasks tied --threads 2 --runs 1 --settings free --programs 2 \
    --match taskwait_child > tested || { fail "spanprof-conformance fails"; cat tested; }
[ "$(installed spanprof-conformance list | wc -l)" -gt 100 ] || fail "the directed programs"
env -i PATH=/usr/bin:/bin "$prefix/bin/spanprof-report" mine.spanprof -o far.html || fail "no page without the PATH"
installed spanprof-path worked.tasks > found 2> output || fail "spanprof-path fails"
grep -q 'work 11, span 9, .*, 3 of 4 segments' found || { fail "spanprof-path"; cat found output; }
[ "$(installed spanprof path worked.tasks)" = "$(cat found)" ] || fail "spanprof path"
installed spanprof --help | grep -q '^Usage: spanprof COMMAND' || fail "spanprof --help"
installed spanprof-whatif worked.tasks --drop-wait taskwait > found 2> output || fail "spanprof-whatif fails"
grep -q '^span *9 *8 ' found || { fail "spanprof-whatif"; cat found output; }
for name in spanprof spanprof-record spanprof-convert spanprof-report spanprof-path spanprof-predict spanprof-import spanprof-whatif spanprof-conformance; do
    [ "$(man -M "$prefix/share/man" -w $name)" = "$prefix/share/man/man1/$name.1" ] || fail "man $name"
    [ -e "$prefix/share/bash-completion/completions/$name" ] || fail "no completion of $name"
done
PATH=$prefix/bin:$PATH "$top/checks/programs/completion.sh" "$prefix" > completed || { fail "completion"; cat completed; }
list "$prefix" > after
cmp before after || fail "running leaves something on the prefix"
echo "everything runs"

# A second time, from another place, beside what is somebody else's.
cd "$top"
make_in_tools install PREFIX="$prefix"
touch "$prefix/bin/other"
make_in_tools uninstall PREFIX="$prefix"
left=$(list "$folder/usr" | tr '\n' ' ')
[ "$left" = ". ./local ./local/bin ./local/bin/other " ] || fail "uninstall leaves $left"
rm "$prefix/bin/other"
make_in_tools install PREFIX=/usr DESTDIR="$folder/stage"
[ -x "$folder/stage/usr/bin/spanprof" ] || fail "nothing stands below DESTDIR"
make_in_tools uninstall PREFIX=/usr DESTDIR="$folder/stage"
[ ! -e "$folder/stage/usr" ] || fail "uninstall leaves $(list "$folder/stage")"
echo "nothing stays"

echo "$wrong wrong"
[ "$wrong" -eq 0 ]
