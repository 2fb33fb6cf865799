# complete.zsh FOLDER LINE: the line as zsh has it after the tab key. FOLDER has _spanprof. A zsh in a terminal of its
# own gets the line and the key; each command is a function there that prints its words.
zmodload zsh/zpty
folder=$1 line=$2 answer=
zpty shell "zsh -f -i"
for words in "PROMPT= RPROMPT= PS2=; unsetopt zle_bracketed_paste prompt_cr; stty -echo; fpath=($folder \$fpath)" \
    "autoload -Uz compinit; compinit -u -d $folder/zcompdump; bindkey '^I' complete-word" \
    'for name in spanprof spanprof_large spanprof-record spanprof-report spanprof-path spanprof-predict spanprof-import spanprof-whatif spanprof-conformance; do
        functions[$name]="print -r -- \"<$name \$*>\""; done; print ready'; do
    zpty -w shell $words
done
wait_for() { # PATTERN: until the answer has it, ten seconds at most
    local part i
    for ((i = 0; i < 100; i++)); do
        while zpty -r -t shell part; do answer+=$part; done
        [[ $answer == *$~1* ]] && return
        sleep 0.1
    done
    return 1
}
wait_for 'ready' || exit 1
answer=
zpty -w -n shell "$line"$'\t'
sleep ${COMPLETION_SECONDS:-2}
zpty -w -n shell $'\n'
wait_for '<*>'
print -r -- ${${(M)${(f)answer}:#*<*>*}[1]//$'\r'}
zpty -d shell
