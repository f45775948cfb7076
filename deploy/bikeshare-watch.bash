# Completion of bikeshare-watch's words in bash. tests/watch.py compares it with the usage text.

_bikeshare_watch() {
    local typed=${COMP_WORDS[COMP_CWORD]} known
    COMPREPLY=()
    case ${COMP_WORDS[COMP_CWORD - 1]} in
    --file | --log | --copies | --state)
        compopt -o filenames 2>/dev/null
        mapfile -t COMPREPLY < <(compgen -f -- "$typed")
        return
        ;;
    --url | --time-server | --port | --since | --silent) return ;;
    esac
    if [[ $typed = -* ]]; then
        known="--prometheus --check --url --time-server --file --log --copies --state --port --since --silent"
    else
        # The cities of this machine are those that have a port.
        known=$(cd /etc/bikeshare 2>/dev/null && for it in *.conf; do [ "$it" = nginx.conf ] || echo "${it%.conf}"; done)
    fi
    mapfile -t COMPREPLY < <(compgen -W "$known" -- "$typed")
}
complete -F _bikeshare_watch bikeshare-watch
