#!/usr/bin/env bash
# Makes the packages of a release (tools/release.sh), unpacks the tarball, installs the .deb by `dpkg -i` on a fresh
# root and the wheel by pip in a fresh environment, runs the programs from all three, and removes the package again. Build spanprof and spanprof_large first; other
# programs may be named.
set -euo pipefail
cd "$(dirname "$0")/../.."
export SPANPROF=${1:-${SPANPROF:-$PWD/crates/spanprof/out/spanprof}}
export SPANPROF_LARGE=${2:-${SPANPROF_LARGE:-$PWD/crates/spanprof_large/out/spanprof_large}}
skip() { echo "skipped: $1"; exit 0; }
[ -x "$SPANPROF" ] || { echo "no program $SPANPROF"; exit 1; }
[ -x "$SPANPROF_LARGE" ] || skip "spanprof_large is not built"
command -v dpkg-deb > /dev/null || skip "dpkg-deb is missing"
as_root=
if [ "$(id -u)" != 0 ]; then
    command -v fakeroot > /dev/null || skip "neither root nor fakeroot"
    as_root=fakeroot
fi
folder=$(mktemp -d)
trap 'rm -rf "$folder"' EXIT
wrong=0
fail() { echo "  $1"; wrong=$((wrong + 1)); }
read -r version < VERSION

# runs PREFIX NAME: everything there answers, with nothing else on the PATH.
runs() {
    local tool file
    inside() { env -i HOME="$folder" PATH="$1/bin:/usr/bin:/bin" "${@:2}"; }
    [ "$(inside "$1" spanprof span < examples/worked.tasks | sed -n 1p)" = "segments 4" ] || fail "$2: spanprof"
    [ "$(inside "$1" spanprof_large < examples/worked.tasks | sed -n 1p)" = "tasks 1" ] || fail "$2: spanprof_large"
    for tool in spanprof{,-record,-convert,-report,-path,-predict,-whatif,-conformance}; do
        inside "$1" "$tool" --version | grep -q "^$tool $version (logic " || fail "$2: $tool --version"
        inside "$1" "$tool" --help > /dev/null || fail "$2: $tool --help"
    done
    inside "$1" spanprof-report examples/openmp/recorded/merge_sort.tasks -o "$folder/page.html" || fail "$2: no page"
    for file in lib/spanprof/librecorder.so share/man/man1/spanprof_large.1; do
        [ -e "$1/$file" ] || fail "$2: no $file"
    done
    (cd "$1/libexec/spanprof" && sed 1d ../../share/doc/spanprof/proofs | sha256sum --quiet -c) ||
        fail "$2: other programs"
    [ ! -e "$SPANPROF_LARGE.sha256" ] || inside "$1" spanprof-path examples/worked.tasks | grep -q '^proved of this text' ||
        fail "$2: the proved program is not known"
    echo "$2"
}

SPANPROF=/none tools/release.sh "$folder/none" 2> "$folder/output" && fail "a release without a program"
grep -q '^release.sh: /none: no such program' "$folder/output" || fail "no word of the program"
tools/release.sh "$folder/release" > "$folder/output" || { fail "no release"; cat "$folder/output"; }
(cd "$folder/release" && sha256sum --quiet -c SHA256SUMS) || fail "the checksums"
mkdir "$folder/unpacked"
tar -xzf "$folder"/release/*.tar.gz -C "$folder/unpacked"
runs "$(echo "$folder"/unpacked/*)" "the tarball"

if python3 -m venv "$folder/python" > "$folder/output" 2>&1; then
    "$folder/python/bin/pip" install --quiet --no-index --no-deps "$folder"/release/*.whl > "$folder/output" 2>&1 ||
        { fail "pip install"; cat "$folder/output"; }
    runs "$folder/python" "the wheel"
fi

root=$folder/root
mkdir -p "$root/var/lib/dpkg/info" "$root/var/lib/dpkg/updates"
touch "$root/var/lib/dpkg/status"
on_root() { $as_root dpkg --root="$root" --force-depends --log=/dev/null "$@"; }
on_root -i "$folder"/release/*.deb > "$folder/output" 2>&1 || { fail "dpkg -i"; cat "$folder/output"; }
runs "$root/usr" "the package"
dpkg --admindir="$root/var/lib/dpkg" -s spanprof > "$folder/output"
grep -q "^Version: $version$" "$folder/output" || fail "dpkg -s"
grep -q "^Depends: libc6 (>= 2\.[0-9]*)" "$folder/output" || fail "the package does not say which glibc it needs"
on_root -r spanprof > "$folder/output" 2>&1 || { fail "dpkg -r"; cat "$folder/output"; }
left=$(find "$root" -path "$root/var" -prune -o ! -type d -print)
[ -z "$left" ] || fail "dpkg -r leaves $left"
echo "$wrong wrong"
[ "$wrong" -eq 0 ]
