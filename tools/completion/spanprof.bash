# Completion of spanprof and its tools, for bash. Where it is not installed: source tools/completion/spanprof.bash
# Commands and options are those that --help lists; what an option takes goes by the name that it has there.

_spanprof_among() { # WORD ..: those of the words that begin like the current one
    mapfile -t COMPREPLY < <(compgen -W "$*" -- "$current")
}

_spanprof_files() { # [END]: folders, and files whose names end so
    mapfile -t COMPREPLY < <((compgen -f -X "!*${1-}" -- "$current"; compgen -d -- "$current") | sort -u)
    compopt -o filenames 2> /dev/null
}

_spanprof_folders() {
    mapfile -t COMPREPLY < <(compgen -d -- "$current")
    compopt -o filenames 2> /dev/null
}

_spanprof_commands() { # those that the help lists
    sed -nE 's/^ {2,4}([a-z]+),? .*/\1/p' <<< "$help" | sort -u
}

_spanprof_takes() { # OPTION: the name of its argument; none where it takes nothing
    sed -nE "s/^ +(.*, )?$1 ([^ ]*[^ ,]).*/\2/p" <<< "$help"
}

_spanprof_argument() { # NAME: of an option
    case $1 in
        UNIT) _spanprof_among ns us ms ;;
        CC) mapfile -t COMPREPLY < <(compgen -c -- "$current" | grep -E '^(gcc|clang|cc|icx)' | sort -u) ;;
        *.html | *.tasks | *.json) _spanprof_files ".${1##*.}" ;;
        *.spanprof | FOLDER) _spanprof_folders ;;
        *FILE* | NAME | LIBRARY) _spanprof_files ;;
        *[a-z],[a-z]*) _spanprof_among "${1//[\{\},]/ }" ;;
    esac
}

_spanprof_program() { # COUNT: behind so many words and their options, the program that is recorded and its own words
    local i
    for ((i = $1; i < COMP_CWORD; i++)); do
        case ${COMP_WORDS[i]} in
            --) ((i++)); break ;;
            -*) [ -z "$(_spanprof_takes "${COMP_WORDS[i]}")" ] || ((i++)) ;;
            *) break ;;
        esac
    done
    [ "$i" -lt "$COMP_CWORD" ] || [ "${COMP_WORDS[i - 1]}" = -- ] || return
    if declare -F _command_offset > /dev/null; then _command_offset "$i"; else _spanprof_files; fi
}

_spanprof_tool() { # TOOL COUNT: behind so many words that name it
    local help count=$2 argument=
    if [ "$1" = conformance ] && ((COMP_CWORD > count)); then ((count++)); fi
    help=$(COLUMNS=500 "${COMP_WORDS[@]:0:count}" --help 2> /dev/null)
    [ "$1" != record ] || ! _spanprof_program "$count" || return
    case $before in -*) argument=$(_spanprof_takes "$before") ;; esac
    case $1,$argument,$current in
        *,,-*) _spanprof_among "$(grep -oE '^ +(-[^ ]+ )*([^ ]+, )?--[a-z-]+' <<< "$help" | grep -oE -e '--[a-z-]+')" ;;
        *,?*,*) _spanprof_argument "$argument" ;;
        convert,*) _spanprof_folders ;;
        conformance,*) if ((COMP_CWORD > $2)); then _spanprof_files; else _spanprof_among "$(_spanprof_commands)"; fi ;;
        record,* | import,*) _spanprof_files ;;
        *) _spanprof_files .tasks ;;
    esac
}

_spanprof() {
    local current=${COMP_WORDS[COMP_CWORD]} before=${COMP_WORDS[COMP_CWORD - 1]} name=${COMP_WORDS[0]##*/} help
    case $name,$COMP_CWORD,${COMP_WORDS[1]} in
        spanprof-*) _spanprof_tool "${name#spanprof-}" 1; return ;;
        *,1,* | *,2,help) help=$("${COMP_WORDS[0]}" --help 2> /dev/null) ;;
        *,test | *,conformance) _spanprof_tool conformance 2; return ;;
        *,record | *,report | *,whatif | *,predict | *,path | *,graph | *,convert | *,import)
            _spanprof_tool "${COMP_WORDS[1]}" 2; return ;;
        *) help=$("${COMP_WORDS[@]:0:2}" --help 2> /dev/null) ;;
    esac
    case $before in
        '<' | '>') _spanprof_files ;;
        "${COMP_WORDS[0]}" | help) _spanprof_among help "$(_spanprof_commands)" ;;
        *) _spanprof_among "$(grep -oE -e '--[a-z]+' <<< "$help")" ;;
    esac
}

_spanprof_large() {
    local current=${COMP_WORDS[COMP_CWORD]} before=${COMP_WORDS[COMP_CWORD - 1]} help
    help=$("${COMP_WORDS[0]}" --help 2> /dev/null)
    case $before in
        '<' | '>') _spanprof_files ;;
        "${COMP_WORDS[0]}") _spanprof_among --upto --help --version "$(_spanprof_commands)" ;;
        *) _spanprof_among "$(grep "^  $before " <<< "$help" | grep -oE -e '--[a-z]+')" ;;
    esac
}

complete -F _spanprof_large spanprof_large
complete -F _spanprof spanprof spanprof-{record,convert,report,path,predict,import,whatif,conformance}
