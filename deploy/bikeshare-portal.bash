# Completion of bikeshare-portal's words in bash.

_bikeshare_portal() {
    local typed=${COMP_WORDS[COMP_CWORD]}
    COMPREPLY=()
    # The first word is an address, which nobody knows here; behind it stand two folders.
    [[ $COMP_CWORD -gt 1 && $COMP_CWORD -lt 4 ]] || return
    compopt -o filenames 2>/dev/null
    mapfile -t COMPREPLY < <(compgen -d -- "$typed")
}
complete -F _bikeshare_portal bikeshare-portal
