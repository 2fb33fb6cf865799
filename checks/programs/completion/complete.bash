# complete.bash FILE WORD ..: what bash completes for the last of these words, one a line. FILE is read first.
# shellcheck source=/dev/null
source "$1"
shift
COMP_WORDS=("$@")
COMP_CWORD=$(($# - 1))
COMP_LINE="$*"
# shellcheck disable=SC2034
COMP_POINT=${#COMP_LINE}
specification=$(complete -p "$1") || exit 1
function=${specification#*-F }
"${function%% *}" "$1" "${COMP_WORDS[COMP_CWORD]}" "${COMP_WORDS[COMP_CWORD - 1]}" 2> /dev/null
printf '%s\n' "${COMPREPLY[@]}"
