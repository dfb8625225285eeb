# Completion of the command lines of ntpaudit and ntpaudit-dossier for bash, from what their own help says.

_ntpaudit() {
    local word=${COMP_WORDS[COMP_CWORD]} before=${COMP_WORDS[COMP_CWORD - 1]} words='' said files
    COMPREPLY=()
    if ((COMP_CWORD == 1)) || [[ ${COMP_WORDS[1]} == help ]]; then
        said=$("${1##*/}" help 2>/dev/null)
        words=$(sed -nE 's/^ {2,4}([a-z]+)  .*/\1/p' <<<"$said")
    else
        said=$("${1##*/}" help "${COMP_WORDS[1]}" 2>/dev/null)
    fi
    if [[ $word == -* ]] || ((COMP_CWORD == 1)); then
        words+=" $(sed -nE 's/^ {2,6}(-.( [A-Z]+)?, )?(--[a-z-]+).*/\3/p' <<<"$said")"
    fi
    if [[ $words || $said =~ $before\ '<'?N'>'?\  ]]; then
        mapfile -t COMPREPLY < <(compgen -W "$words" -- "$word")
    else
        compopt -o filenames 2>/dev/null
        mapfile -t files < <(compgen -f -- "$word")
        COMPREPLY=("${files[@]}")
    fi
}
complete -F _ntpaudit ntpaudit ntpaudit-dossier
