# Completion for bash of dlm: tasks, folders and scripts, hosts, commands, modes. Numbers of clients, requests and locks are the
# user's own, so nothing is offered for them.

_dlm() {
    local word=${COMP_WORDS[COMP_CWORD]} task=${COMP_WORDS[1]} command=${COMP_WORDS[4]-} words=
    local hosts="0 1 2 3 4 5 6 7 8 9 10 11 12 13 14 15"

    COMPREPLY=()
    case $COMP_CWORD:$task in
        1:*) words="run format submit table mark check migrate replace fill renew race sweep" ;;
        2:run | 2:sweep)
            compopt -o filenames
            mapfile -t COMPREPLY < <(compgen -f -- "$word")
            return
            ;;
        2:format | 2:submit | 2:table | 2:mark | 2:check | 2:migrate | 3:migrate | 2:replace | 2:fill | 2:renew | 4:renew)
            compopt -o filenames
            mapfile -t COMPREPLY < <(compgen -d -- "$word")
            return
            ;;
        2:race) words="1 2 3 4 5 6 7 8 9 10 11 12 13 14 15 16" ;;
        3:format | 5:renew) words="1 2 3 4 5 6 7" ;;
        3:replace) words="0 1 2 3 4 5 6" ;;
        3:submit | 3:table | 3:mark | 3:fill | 3:renew) words=$hosts ;;
        4:submit) words="enqueue convert release cancel status purge forget" ;;
        *:submit)
            case $COMP_CWORD:$command in
                7:purge) words=$hosts ;;
                8:enqueue | 8:convert) words="NL CR CW PR PW EX" ;;
                10:enqueue) words="noqueue" ;;
                9:convert) words="noqueue value" ;;
                10:convert) [[ ${COMP_WORDS[9]} == value ]] || words="value" ;;
                8:release) words="value" ;;
            esac
            ;;
    esac
    [[ $words != [01]\ * ]] || compopt -o nosort
    mapfile -t COMPREPLY < <(compgen -W "$words" -- "$word")
}

complete -F _dlm dlm
