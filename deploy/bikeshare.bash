# Completion of bikeshare's subcommands in bash. tests/package.py compares it with the program's usage text.

_bikeshare() {
    local at place=0 word=
    COMPREPLY=()

    # The subcommand, and how many values stand behind it. An option takes the next one, or what bash parts from it at the sign =.
    for ((at = 1; at < COMP_CWORD; at++)); do
        case ${COMP_WORDS[at]} in
        --at | --port | --count)
            at=$((at + 1))
            [[ $at -lt $COMP_CWORD && ${COMP_WORDS[at]} = "=" ]] && at=$((at + 1))
            # Its value is what is being typed.
            [[ $at -ge $COMP_CWORD ]] && return
            ;;
        --) ;;
        *)
            if [[ -n $word ]]; then place=$((place + 1)); else word=${COMP_WORDS[at]}; fi
            ;;
        esac
    done

    local typed=${COMP_WORDS[COMP_CWORD]} known=
    case $word:$place in
    :*) known="init check raise lines feed day history import serve" ;;
    feed:1) known="gbfs system_information vehicle_types station_information station_status system_pricing_plans system_regions" ;;
    day:1) known="entries rentals requests" ;;
    *:0)
        if [[ $typed != -* ]]; then
            compopt -o filenames 2>/dev/null
            # A log is no FILE.
            mapfile -t COMPREPLY < <(compgen -f -X '*-wal' -- "$typed")
            return
        fi
        ;;
    esac
    if [[ -n $word && $typed = -* || -z $known ]]; then
        case $word in
        feed | import) known="--at" ;;
        serve) known="--port --count" ;;
        esac
    fi
    mapfile -t COMPREPLY < <(compgen -W "$known" -- "$typed")
}
complete -F _bikeshare bikeshare
