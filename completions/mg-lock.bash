# Completion for bash of mg-lock: options, folders, hosts, then the words of the command.

_mg_lock() {
    local word=${COMP_WORDS[COMP_CWORD]} before=${COMP_WORDS[COMP_CWORD - 1]} words= given=0 shows=0 i
    COMPREPLY=()
    case $before in
        -m | --mode) mapfile -t COMPREPLY < <(compgen -W "NL CR CW PR PW EX" -- "$word"); return ;;
        -w | --timeout | -E | --conflict-exit-code | -k | --check | -i | --interval) return ;;
    esac
    # How many words stand before this one that are no options.
    for ((i = 1; i < COMP_CWORD; i++)); do
        case ${COMP_WORDS[i]} in
            -m | --mode | -w | --timeout | -E | --conflict-exit-code | -k | --check | -i | --interval) [[ $given -gt 0 ]] || ((i++)) ;;
            --status | --give) [[ $given -gt 0 ]] && ((given++)) || shows=1 ;;
            -*) [[ $given -eq 0 ]] || ((given++)) ;;
            *) ((given++)) ;;
        esac
    done
    [[ $shows -eq 0 || $given -eq 0 ]] || return
    case $given in
        0)
            if [[ $word == -* ]]; then
                words="--exclusive --shared --mode --nonblock --timeout --conflict-exit-code --value --close --check --interval --recover --all --take --give --status --json --prometheus --verbose --help --version"
                mapfile -t COMPREPLY < <(compgen -W "$words" -- "$word")
            else
                compopt -o filenames
                mapfile -t COMPREPLY < <(compgen -d -- "$word")
            fi
            ;;
        1)
            compopt -o nosort
            mapfile -t COMPREPLY < <(compgen -W "0 1 2 3 4 5 6 7 8 9 10 11 12 13 14 15" -- "$word")
            ;;
        2) ;;
        *)
            compopt -o filenames
            mapfile -t COMPREPLY < <(compgen -c -- "$word"; compgen -f -- "$word")
            ;;
    esac
}

complete -F _mg_lock mg-lock
