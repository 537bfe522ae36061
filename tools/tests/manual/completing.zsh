# Prints what zsh offers where Tab is pressed at the end of each of the lines that follow the completion's file, with
# bars between words.
if [[ ! -o interactive ]]; then
    export FUNCTIONS=${1:h}
    zmodload zsh/zpty
    zpty shell zsh -f -i
    zpty -w shell "source ${(q)0}"
    for line in '' ${argv[2,-1]}; do
        zpty -w -n shell "$line"$'\t'
        zpty -r shell said '*<<*>>*'
        [[ -n $line ]] && print -r -- ${${said##*<<}%%>>*}
    done
    exit
fi
# A list that is longer than the screen would ask first.
unsetopt autolist
fpath=($FUNCTIONS $fpath)
autoload -Uz compinit && compinit -D -u
_record() {
    compadd() {
        local -a found
        if (( ! ${argv[(I)-[OAD]*]} )); then
            builtin compadd -O found "$@"
            offered+=("${found[@]}")
        fi
        builtin compadd "$@"
    }
    _main_complete
    unfunction compadd
}
zle -C record complete-word _record
tab() {
    local -a offered
    zle record
    print -r -- "<<${(j:|:)offered}>>"
    BUFFER=
}
zle -N tab
bindkey '^I' tab
