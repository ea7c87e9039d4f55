# Completion of cilkcheck's commands, options and files, for bash.

_cilkcheck() {
    local current=${COMP_WORDS[COMP_CWORD]} before=${COMP_WORDS[COMP_CWORD - 1]} command= place=0 options= kinds= kind i
    COMPREPLY=()
    for ((i = 1; i < COMP_CWORD; i++)); do
        case ${COMP_WORDS[i]} in
            --workers | --limit | --trace | --color | --format) ((i++)) ;;
            -*) ;;
            *) if [ -z "$command" ]; then command=${COMP_WORDS[i]}; else ((place++)); fi ;;
        esac
    done
    case $command in
        '') options='-h --help -V --version' ;;
        judge) options='--limit -h --help' kinds=trace ;;
        run) options='--workers --limit --trace -h --help' kinds=cilk ;;
        explain)
            options='--workers --serial --limit --color --format --all -h --help' kinds='cilk|trace'
            # behind the first file stand traces
            for ((i = 0; i < place; i++)); do kinds+=' trace'; done
            ;;
        elide) options='--limit -h --help' kinds=cilk ;;
        replay) options='-h --help' kinds='cilk trace' ;;
        draw) options='--svg -h --help' kinds=trace ;;
        help) options= ;;
    esac
    case $before in
        --color) COMPREPLY=($(compgen -W 'auto always never' -- "$current")); return ;;
        --format) COMPREPLY=($(compgen -W 'text json sarif' -- "$current")); return ;;
        --trace)
            compopt -o filenames 2> /dev/null
            mapfile -t COMPREPLY < <(compgen -f -- "$current")
            return
            ;;
        --workers | --limit) return ;;
    esac
    if [[ $current = -* ]]; then
        COMPREPLY=($(compgen -W "$options" -- "$current"))
    elif [ -z "$command" ] || [ "$command" = help ]; then
        COMPREPLY=($(compgen -W 'judge elide run explain replay draw help' -- "$current"))
    else
        # the files of the kinds that this place takes, and folders
        kinds=($kinds)
        [ "$place" -lt ${#kinds[@]} ] || return
        compopt -o filenames 2> /dev/null
        mapfile -t COMPREPLY < <(
            for kind in ${kinds[place]//|/ }; do compgen -f -X "!*.$kind" -- "$current"; done
            compgen -d -- "$current"
        )
    fi
}

complete -F _cilkcheck cilkcheck ./cilkcheck
