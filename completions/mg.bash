# Completion for bash of mg: words, options, folders and scripts. Made by capi/mg_pages.py.

_mg() {
    local word=${COMP_WORDS[COMP_CWORD]} before=${COMP_WORDS[COMP_CWORD - 1]} task=${COMP_WORDS[1]-} words= options= takes=0 given=0 i
    COMPREPLY=()
    if [[ $COMP_CWORD -eq 1 ]]; then
        mapfile -t COMPREPLY < <(compgen -W "create lock take give status watch recover submit table mark check migrate replace run sweep help --help --version" -- "$word")
        return
    fi
    case $task in
        help) [[ $COMP_CWORD -ne 2 ]] || mapfile -t COMPREPLY < <(compgen -W "create lock take give status watch recover submit table mark check migrate replace run sweep" -- "$word"); return ;;
        create) options="--cluster --disks --slots --json --help" takes=1 ;;
        lock) options="--host --mode --shared --exclusive --wait --nonblock --conflict-exit-code --check --interval --value --close --verbose --command --help" takes=2 ;;
        take) options="--host --mode --wait --json --help" takes=2 ;;
        give) options="--help" takes=2 ;;
        status) options="--json --prometheus --help" takes=1 ;;
        watch) options="--every --help" takes=1 ;;
        recover) options="--host --all --json --help" takes=1 ;;
        submit) options="--host --json --help" takes=1 ;;
        table) options="--host --json --help" takes=1 ;;
        mark) options="--host --json --help" takes=1 ;;
        check) options="--json --help" takes=1 ;;
        migrate) options="--json --help" takes=1 ;;
        replace) options="--json --help" takes=2 ;;
        run) options="--help" takes=1 ;;
        sweep) options="--help" takes=1 ;;
        *) return ;;
    esac
    # How many words stand before this one that are no options.
    for ((i = 2; i < COMP_CWORD; i++)); do
        case ${COMP_WORDS[i]} in
            --) [[ $given -lt $takes ]] || ((given++)) ;;
            --cluster | --disks | --slots | --host | --mode | -m | --wait | -w | --conflict-exit-code | -E | --check | -k | --interval | -i | --command | -c | --every) if [[ $given -le $takes ]]; then ((i++)); else ((given++)); fi ;;
            -*) [[ $given -le $takes ]] || ((given++)) ;;
            *) ((given++)) ;;
        esac
    done
    if [[ $given -le $takes ]]; then
        case $before in
            --check | -k) return ;;
            --cluster) return ;;
            --command | -c) return ;;
            --conflict-exit-code | -E) return ;;
            --disks) compopt -o nosort; words="1 2 3 4 5 6 7" ;;
            --every) return ;;
            --host) compopt -o nosort; words="0 1 2 3 4 5 6 7 8 9 10 11 12 13 14 15" ;;
            --interval | -i) return ;;
            --mode | -m) words="NL CR CW PR PW EX" ;;
            --slots) return ;;
            --wait | -w) return ;;
        esac
        if [[ -n $words ]]; then
            mapfile -t COMPREPLY < <(compgen -W "$words" -- "$word")
            return
        elif [[ $word == -* ]]; then
            mapfile -t COMPREPLY < <(compgen -W "$options" -- "$word")
            return
        fi
    fi
    case $given:$task in
        0:run | 0:sweep) compopt -o filenames; mapfile -t COMPREPLY < <(compgen -f -- "$word") ;;
        0:*) compopt -o filenames; mapfile -t COMPREPLY < <(compgen -d -- "$word") ;;
        1:submit) mapfile -t COMPREPLY < <(compgen -W "enqueue convert release cancel status purge forget" -- "$word") ;;
        1:replace) mapfile -t COMPREPLY < <(compgen -W "0 1 2 3 4 5 6" -- "$word") ;;
        5:submit) mapfile -t COMPREPLY < <(compgen -W "NL CR CW PR PW EX" -- "$word") ;;
        1:lock) ;;
        *:lock) compopt -o filenames; mapfile -t COMPREPLY < <(compgen -c -- "$word"; compgen -f -- "$word") ;;
    esac
}

complete -F _mg mg
