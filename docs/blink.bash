# Completions of blink for bash. ./install puts this file where bash looks for it.

_blink() {
    local word=${COMP_WORDS[COMP_CWORD]} before=${COMP_WORDS[COMP_CWORD - 1]} command=${COMP_WORDS[1]:-} words=
    COMPREPLY=()
    if [ "$COMP_CWORD" -eq 1 ]; then
        words='serve dump load rows check draw replay log help --help --version'
    else
        case $before in
            --large | --workers | --compressors | --section | --fill) return ;;
            --pages) [ "$command" = replay ] || return ;;
            --image)
                mapfile -t COMPREPLY < <(compgen -f -- "$word")
                return
                ;;
        esac
        case $command in
            serve | dump) words='--pages --large --workers --compressors --image --section --interactive --stats --help' ;;
            load) words='--pages --large --fill --help' ;;
            draw) words='--svg --html --help' ;;
            replay) words='--pages --html --help' ;;
            rows | check) words='--help' ;;
            log) words='rows check load --help' ;;
            help) words='serve dump load rows check draw replay log help' ;;
        esac
    fi
    mapfile -t COMPREPLY < <(compgen -W "$words" -- "$word")
    case $command in
        dump | load | rows | check | draw | replay | log)
            local files
            mapfile -t files < <(compgen -f -- "$word")
            COMPREPLY+=("${files[@]}")
            ;;
    esac
}

complete -o filenames -F _blink blink
