# Completion of avtool for bash.
_avtool() {
    local word=${COMP_WORDS[COMP_CWORD]} before=${COMP_WORDS[COMP_CWORD - 1]} command=${COMP_WORDS[1]-} options
    if [ "$COMP_CWORD" = 1 ]; then
        COMPREPLY=($(compgen -W "chart generate import merge sign help --help --version" -- "$word"))
        return
    fi
    case $before in
    --profile)
        COMPREPLY=($(compgen -W "deep uniform" -- "$word"))
        return
        ;;
    esac
    case $command in
    chart) options="--from --to --help" ;;
    generate) options="--seed --commands --profile --help" ;;
    import) options="--set-version --any-target --format-1 --all --output --help" ;;
    merge) options="--set-version --output --trust --help" ;;
    sign) options="--key --output --trust --help" ;;
    help) options="chart generate import merge sign" ;;
    *) options="--help" ;;
    esac
    case $command:$word in
    help:* | generate:* | *:-*) COMPREPLY=($(compgen -W "$options" -- "$word")) ;;
    *) mapfile -t COMPREPLY < <(compgen -f -- "$word") ;;
    esac
}
complete -o filenames -F _avtool avtool
