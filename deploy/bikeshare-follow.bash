# Completion of bikeshare-follow's words in bash. tests/follow.py compares it with the usage text.

_bikeshare_follow() {
    local typed=${COMP_WORDS[COMP_CWORD]} at place=0
    COMPREPLY=()
    if [[ $typed = -* ]]; then
        mapfile -t COMPREPLY < <(compgen -W "--token-file --every --once" -- "$typed")
        return
    fi
    [[ ${COMP_WORDS[COMP_CWORD - 1]} = --every ]] && return
    if [[ ${COMP_WORDS[COMP_CWORD - 1]} != --token-file ]]; then
        for ((at = 1; at < COMP_CWORD; at++)); do
            case ${COMP_WORDS[at]} in
            --token-file | --every) at=$((at + 1)) ;;
            -*) ;;
            *) place=$((place + 1)) ;;
            esac
        done
        # Behind COPY stands an address, which nobody knows here.
        [[ $place = 0 ]] || return
    fi
    compopt -o filenames 2>/dev/null
    # A log is no COPY.
    mapfile -t COMPREPLY < <(compgen -f -X '*-wal' -- "$typed")
}
complete -F _bikeshare_follow bikeshare-follow
