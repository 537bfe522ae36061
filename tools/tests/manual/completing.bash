# Prints what bash offers at the end of each of the lines that follow the completion's file, with bars between words.
source "$1" || exit
shift
for line in "$@"; do
    IFS=' ' read -r -a COMP_WORDS <<< "$line"
    [[ $line == *' ' ]] && COMP_WORDS+=('')
    COMP_CWORD=$((${#COMP_WORDS[@]} - 1))
    "_${COMP_WORDS[0]//-/_}"
    (IFS='|' && printf '%s\n' "${COMPREPLY[*]}")
done
