# Completion of bikeshare-doctor's subcommands in bash.

_bikeshare_doctor() {
    local typed=${COMP_WORDS[COMP_CWORD]} word=${COMP_WORDS[1]} known=
    COMPREPLY=()
    if [[ $COMP_CWORD = 1 ]]; then
        compopt -o filenames 2>/dev/null
        mapfile -t COMPREPLY < <(compgen -W "log lines table feed portal manifest" -- "$typed"; compgen -f -X '*-wal' -- "$typed")
        return
    fi
    case $word in
    lines | table) return ;;
    log)
        compopt -o filenames 2>/dev/null
        mapfile -t COMPREPLY < <(compgen -f -X '*-wal' -- "$typed")
        return
        ;;
    feed) known="--here --strict" ;;
    portal | manifest)
        # Behind the first stand addresses, which nobody knows here.
        [[ $COMP_CWORD = 2 ]] || return
        compopt -o filenames 2>/dev/null
        mapfile -t COMPREPLY < <(compgen -f -- "$typed")
        return
        ;;
    # The value of --port is what is being typed.
    *) [[ ${COMP_WORDS[COMP_CWORD - 1]} = --port ]] || known="--port" ;;
    esac
    [[ $typed != -* ]] || mapfile -t COMPREPLY < <(compgen -W "$known" -- "$typed")
}
complete -F _bikeshare_doctor bikeshare-doctor
