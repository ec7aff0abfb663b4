# Completion of avscan for bash.
_avscan() {
    local word=${COMP_WORDS[COMP_CWORD]} before=${COMP_WORDS[COMP_CWORD - 1]} command=${COMP_WORDS[1]-} options
    if [ "$COMP_CWORD" = 1 ]; then
        COMPREPLY=($(compgen -W "run scan host filter service check help --help --version" -- "$word"))
        return
    fi
    case $before in
    --openers | --workers)
        COMPREPLY=($(compgen -W "1 2 4 8 16" -- "$word"))
        return
        ;;
    --wait | --watch)
        COMPREPLY=($(compgen -W "5 10 30 60 300" -- "$word"))
        return
        ;;
    --jobs | -j)
        COMPREPLY=($(compgen -W "1 2 4 8 16" -- "$word"))
        return
        ;;
    --max-size)
        COMPREPLY=($(compgen -W "1048576 10000000 100000000 1000000000" -- "$word"))
        return
        ;;
    --mode)
        COMPREPLY=($(compgen -W "600 660 666" -- "$word"))
        return
        ;;
    esac
    case $command in
    run) options="--json --help" ;;
    scan) options="--recursive --exclude --one-file-system --keep-going --jobs --max-size --all-matches --move --set --allow-empty --trust --infected --json --print0 --files-from --null --found-status --summary --quiet --help" ;;
    host) options="--openers --workers --spare --allow-empty --trust --infected --json --print0 --files-from --null --found-status --summary --quiet --help" ;;
    filter) options="--wait --mode --infected --json --print0 --files-from --null --found-status --summary --quiet --help" ;;
    service) options="--wait --watch --spare --allow-empty --trust --help" ;;
    check) options="--trust --help" ;;
    help) options="run scan host filter service check" ;;
    *) options="--help" ;;
    esac
    case $command:$word in
    help:* | *:-*) COMPREPLY=($(compgen -W "$options" -- "$word")) ;;
    *) mapfile -t COMPREPLY < <(compgen -f -- "$word") ;;
    esac
}
complete -o filenames -F _avscan avscan
