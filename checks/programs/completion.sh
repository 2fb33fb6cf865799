#!/usr/bin/env bash
# Completes lines by the functions of tools/completion, in bash, and in zsh where there is one, and compares what comes
# with what has to come. SPANPROF_LARGE names that program. A prefix may be named on which `make -C tools install` has
# put them.
set -euo pipefail
cd "$(dirname "$0")/../.."
top=$PWD large=${SPANPROF_LARGE:-$PWD/crates/spanprof_large/out/spanprof_large}
bash_file=$top/tools/completion/spanprof.bash zsh_folder=$top/tools/completion
if [ $# -gt 0 ]; then
    bash_file=$1/share/bash-completion/completions/spanprof-record zsh_folder=$1/share/zsh/site-functions
else
    export PATH=$top/tools/bin:$top/tools:$PATH
fi
folder=$(mktemp -d)
trap 'rm -rf "$folder"' EXIT
cp "$zsh_folder/_spanprof" "$folder"
cd "$folder"
mkdir sources .bin
ln -s "$large" .bin/spanprof_large
PATH=$folder/.bin:$PATH
touch mine.tasks mine.html
wrong=0
expect() { # SHELL GOT WANTED LINE
    [ "$2" = "$3" ] || { echo "  $1: '$4' becomes '$2', and not '$3'"; wrong=$((wrong + 1)); }
}
in_bash() { # LINE: what its last word becomes
    local words
    read -ra words <<< "$1"
    case $1 in *' ') words+=('') ;; esac
    bash "$top/checks/programs/completion/complete.bash" "$bash_file" "${words[@]}" | tr '\n' ' ' | sed 's/ *$//'
}
in_zsh() { # LINE: what it becomes
    zsh -f "$top/checks/programs/completion/complete.zsh" "$folder" "$1" | sed 's/^<//; s/ *>$//'
}

while IFS='|' read -r line completed; do
    expect bash "$(in_bash "$line")" "$completed" "$line"
    if command -v zsh > /dev/null; then expect zsh "$(in_zsh "$line")" "${line% *} $completed" "$line"; fi
    echo "$line"
done <<'LINES'
spanprof gre|greedy
spanprof greedy --|--threads
spanprof curve --|--upto
spanprof run --|--workers
spanprof rec|record
spanprof record --uni|--unit
spanprof report mi|mine.tasks
spanprof test run --tasks un|untied
spanprof whatif mine.tasks --cut|--cutoff
spanprof help gre|greedy
spanprof_large --u|--upto
spanprof_large bo|bounds
spanprof_large gra|graph
spanprof_large greedy --|--threads
spanprof_large account --r|--rows
spanprof_large whatif --|--listed
spanprof_large rep|replay
spanprof_large pl|places
spanprof_large rel|relaxation
spanprof_large cer|certify
spanprof-record --uni|--unit
spanprof-record --clock c|cpu
spanprof-report -o mi|mine.html
spanprof-report mi|mine.tasks
spanprof-report mine.tasks --source so|sources
spanprof-path mi|mine.tasks
spanprof-path mine.tasks --cs|--csv
spanprof-import --from st|starpu
spanprof-predict mi|mine.tasks
spanprof-predict mine.tasks --ru|--runtime
spanprof-whatif mi|mine.tasks
spanprof-whatif mine.tasks --cut|--cutoff
spanprof-whatif -o mi|mine.tasks
spanprof-conformance mu|mutants
spanprof-conformance run --tasks un|untied
spanprof-conformance run --pre|--preload
LINES

every=$(in_bash 'spanprof ')
for command in record report whatif predict path graph convert import test span show slack greedy curve certify check \
    run replay bounds account places relaxation; do
    [[ " $every " = *" $command "* ]] || { echo "  bash: no $command"; wrong=$((wrong + 1)); }
done
for name in record report path whatif import; do
    listed=$(spanprof-$name --help | grep -oE -e '(^| )--[a-z-]+' | tr -d ' ' | sort -u)
    expect bash "$(in_bash "spanprof-$name --" | tr ' ' '\n' | grep -e '--.' | sort -u)" "$listed" "spanprof-$name --"
    command -v zsh > /dev/null || continue
    expect zsh "$(zsh -f -o extendedglob -c "source $folder/_spanprof; _spanprof_specs spanprof-$name" |
        grep -oE -e '^\*--[a-z-]+' | tr -d '*' | sort -u)" "$listed" "spanprof-$name --"
done
echo "all options"

command -v zsh > /dev/null || echo "skipped: zsh is missing"
echo "$wrong wrong"
[ "$wrong" -eq 0 ]
