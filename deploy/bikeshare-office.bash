# Completion of bikeshare-office's words in bash. tests/office_tool.py compares it with the usage text.

_bikeshare_office() {
    local typed=${COMP_WORDS[COMP_CWORD]}
    COMPREPLY=()
    if [[ $typed = -* ]]; then
        mapfile -t COMPREPLY < <(compgen -W "--token --name --patience --dry-run" -- "$typed")
        return
    fi
    case ${COMP_WORDS[COMP_CWORD - 1]} in
    --name | --patience) return ;;
    esac
    # The first word is an address, which nobody knows here.
    [[ $COMP_CWORD -gt 1 ]] || return
    compopt -o filenames 2>/dev/null
    mapfile -t COMPREPLY < <(compgen -f -- "$typed")
}
complete -F _bikeshare_office bikeshare-office
