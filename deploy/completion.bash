# Completion for bash: the journal's file, then the words that the program itself lists.
_jaqhendulu() {
    local word=${COMP_WORDS[COMP_CWORD]}
    case $COMP_CWORD in
        1) compopt -o filenames 2>/dev/null
           mapfile -t COMPREPLY < <(compgen -f -- "$word") ;;
        2) local words
           words=$("${COMP_WORDS[0]}" 2>&1 | sed -n 's/^  \([a-z-]*\) .*/\1/p')
           mapfile -t COMPREPLY < <(compgen -W "$words" -- "$word") ;;
        *) COMPREPLY=() ;;
    esac
}
complete -F _jaqhendulu jaqhendulu
