# Completion of avguard for bash.
_avguard() {
    local word=${COMP_WORDS[COMP_CWORD]} before=${COMP_WORDS[COMP_CWORD - 1]} command=${COMP_WORDS[1]-} options
    if [ "$COMP_CWORD" = 1 ]; then
        COMPREPLY=($(compgen -W "run ask status metrics paths check-config help --help --version" -- "$word"))
        return
    fi
    case $before in
    --wait)
        COMPREPLY=($(compgen -W "5 10 30 60 300" -- "$word"))
        return
        ;;
    --keep)
        COMPREPLY=($(compgen -W "0 67108864 1073741824" -- "$word"))
        return
        ;;
    --clients)
        COMPREPLY=($(compgen -W "1 16 64" -- "$word"))
        return
        ;;
    --below)
        mapfile -t COMPREPLY < <(compgen -d -- "$word")
        return
        ;;
    --questions)
        COMPREPLY=($(compgen -W "1 64 256" -- "$word"))
        return
        ;;
    --mode | --service-mode)
        COMPREPLY=($(compgen -W "600 660 666" -- "$word"))
        return
        ;;
    esac
    case $command in
    run) options="--config --open --closed --wait --keep --questions --max-size --stream-max-size --clamd --names --trust --mode --service-mode --least --most-version --state --log --log-grants --log-json --help" ;;
    ask) options="--recursive --keep-going --infected --json --print0 --files-from --null --found-status --summary --wait --quiet --help" ;;
    status) options="--json --wait --help" ;;
    metrics) options="--wait --help" ;;
    paths) options="--below --wait --clients --mode --help" ;;
    help) options="run ask status metrics paths check-config" ;;
    *) options="--help" ;;
    esac
    case $command:$word in
    help:* | *:-*) COMPREPLY=($(compgen -W "$options" -- "$word")) ;;
    *) mapfile -t COMPREPLY < <(compgen -f -- "$word") ;;
    esac
}
complete -o filenames -F _avguard avguard
