# Completion for fish of mg-lock: options, folders, hosts, then the words of the command.

# How many words stand in front that are no options.
function __mg_lock_words
    set -l words (commandline -opc)
    set -l given 0
    set -l skips 0
    for word in $words[2..]
        if test $skips -eq 1
            set skips 0
        else if test $given -eq 0; and contains -- $word -m --mode -w --timeout -E --conflict-exit-code -k --check -i --interval
            set skips 1
        else if test $given -gt 0; or not string match -q -- '-*' $word
            set given (math $given + 1)
        end
    end
    echo $given
end

complete -c mg-lock -f
complete -c mg-lock -n 'test (__mg_lock_words) -eq 0' -a '(__fish_complete_directories)'
complete -c mg-lock -n 'test (__mg_lock_words) -eq 0' -s x -l exclusive -d 'EX, the mode if none is given'
complete -c mg-lock -n 'test (__mg_lock_words) -eq 0' -s s -l shared -d PR
complete -c mg-lock -n 'test (__mg_lock_words) -eq 0' -s m -l mode -x -a 'NL CR CW PR PW EX' -d mode
complete -c mg-lock -n 'test (__mg_lock_words) -eq 0' -s n -l nonblock -d 'do not wait'
complete -c mg-lock -n 'test (__mg_lock_words) -eq 0' -s w -l timeout -x -d 'wait no longer, in seconds'
complete -c mg-lock -n 'test (__mg_lock_words) -eq 0' -s E -l conflict-exit-code -x -d 'status where it was not granted'
complete -c mg-lock -n 'test (__mg_lock_words) -eq 0' -s v -l value -d 'print the value of the name first'
complete -c mg-lock -n 'test (__mg_lock_words) -eq 0' -s o -l close -d 'the command does not keep the lock if mg-lock is killed'
complete -c mg-lock -n 'test (__mg_lock_words) -eq 0' -s k -l check -x -d 'look so often whether the lock was taken away'
complete -c mg-lock -n 'test (__mg_lock_words) -eq 0' -s i -l interval -x -d 'longest pause between looks, in milliseconds'
complete -c mg-lock -n 'test (__mg_lock_words) -eq 0' -s r -l recover -d 'release what processes that are gone have left'
complete -c mg-lock -n 'test (__mg_lock_words) -eq 0' -s a -l all -d 'with -r: all locks of this host'
complete -c mg-lock -n 'test (__mg_lock_words) -eq 0' -l take -d 'print the lock, and leave it taken'
complete -c mg-lock -n 'test (__mg_lock_words) -eq 0' -l give -d 'give such locks back'
complete -c mg-lock -n 'test (__mg_lock_words) -eq 0' -l status -d 'print slots, disks, host numbers in use here, and locks'
complete -c mg-lock -n 'test (__mg_lock_words) -eq 0' -l json -d 'with --status or --take: for programs'
complete -c mg-lock -n 'test (__mg_lock_words) -eq 0' -l prometheus -d 'with --status: for node_exporter of Prometheus'
complete -c mg-lock -n 'test (__mg_lock_words) -eq 0' -l verbose -d 'say how long it waited'
complete -c mg-lock -n 'test (__mg_lock_words) -eq 0' -s h -l help -d 'show the options'
complete -c mg-lock -n 'test (__mg_lock_words) -eq 0' -s V -l version -d 'show the version'
complete -c mg-lock -n 'test (__mg_lock_words) -eq 1; and not contains -- --status (commandline -opc); and not contains -- --give (commandline -opc)' -a '(seq 0 15)' -d host
complete -c mg-lock -n 'test (__mg_lock_words) -gt 2' -a '(__fish_complete_subcommand --fcs-skip=4)' -F
