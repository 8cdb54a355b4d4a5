# Completion for bash of dlm-shared: tasks, folders, hosts, commands, modes, sectors.

_dlm_shared() {
    local word=${COMP_WORDS[COMP_CWORD]} task=${COMP_WORDS[1]} command=${COMP_WORDS[4]-} words=
    local hosts="0 1 2 3 4 5 6 7 8 9 10 11 12 13 14 15"

    COMPREPLY=()
    case $COMP_CWORD:$task in
        1:-*) words="--help --version" ;;
        1:*) words="format submit table mark check export take" ;;
        2:format | 2:submit | 2:table | 2:mark | 2:check | 2:export | 2:take | 3:export)
            compopt -o filenames
            mapfile -t COMPREPLY < <(compgen -d -- "$word")
            return
            ;;
        3:format) words="1 2 3 4 5 6 7" ;;
        4:format) words="-" ;;
        5:format) words="nodsync files" ;;
        6:format) words="1 2 3 4 5 6 7 8 9 10 11 12 13 14 15 16 nodsync files" ;;
        7:format) words="512 1024 2048 4096 nodsync files" ;;
        8:format) words="nodsync files" ;;
        3:submit | 3:table | 3:mark | 3:take) words=$hosts ;;
        4:submit) words="enqueue convert release cancel status purge forget" ;;
        *:submit)
            case $COMP_CWORD:$command in
                7:purge) words=$hosts ;;
                8:enqueue | 8:convert) words="NL CR CW PR PW EX" ;;
                10:enqueue) words="noqueue" ;;
                9:convert) words="noqueue value" ;;
                10:convert) [[ ${COMP_WORDS[9]} == value ]] || words="value" ;;
                8:release) words="value" ;;
            esac
            ;;
    esac
    [[ $words != [015]*\ * ]] || compopt -o nosort
    mapfile -t COMPREPLY < <(compgen -W "$words" -- "$word")
}

complete -F _dlm_shared dlm-shared
