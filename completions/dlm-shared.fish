# Completion for fish of dlm-shared: tasks, folders, hosts, commands, modes, sectors.

# Whether so many words stand in front, the second of which is one of the given tasks.
function __dlm_shared_at
    set -l words (commandline -opc)
    test (count $words) -eq $argv[1]; and contains -- $words[2] $argv[2..]
end

# Whether so many words stand in front, of a submission whose command is one of the given ones.
function __dlm_shared_command_at
    set -l words (commandline -opc)
    test (count $words) -eq $argv[1]; and test "$words[2]" = submit; and contains -- $words[5] $argv[2..]
end

complete -c dlm-shared -f
complete -c dlm-shared -n 'test (count (commandline -opc)) -eq 1' -a format -d 'format devices that several machines use'
complete -c dlm-shared -n 'test (count (commandline -opc)) -eq 1' -a submit -d 'submit a command'
complete -c dlm-shared -n 'test (count (commandline -opc)) -eq 1' -a table -d 'show the lock table'
complete -c dlm-shared -n 'test (count (commandline -opc)) -eq 1' -a mark -d 'mark the slots that have no mark'
complete -c dlm-shared -n 'test (count (commandline -opc)) -eq 1' -a check -d 'look for damage'
complete -c dlm-shared -n 'test (count (commandline -opc)) -eq 1' -a export -d 'copy to images'
complete -c dlm-shared -n 'test (count (commandline -opc)) -eq 1' -a take -d 'make a host number of this machine'
complete -c dlm-shared -n 'test (count (commandline -opc)) -eq 1' -s h -l help -d 'show the words'
complete -c dlm-shared -n 'test (count (commandline -opc)) -eq 1' -s V -l version -d 'show the version'
complete -c dlm-shared -n '__dlm_shared_at 2 format submit table mark check export take' -a '(__fish_complete_directories)'
complete -c dlm-shared -n '__dlm_shared_at 3 export' -a '(__fish_complete_directories)'
complete -c dlm-shared -n '__dlm_shared_at 3 format' -a '(seq 1 7)' -d 'disks'
complete -c dlm-shared -n '__dlm_shared_at 4 format' -a - -d 'no slots: a log without an end'
complete -c dlm-shared -n '__dlm_shared_at 6 format' -a '(seq 1 16)' -d 'hosts'
complete -c dlm-shared -n '__dlm_shared_at 7 format' -a '512 1024 2048 4096' -d 'sector'
complete -c dlm-shared -n '__dlm_shared_at 5 format; or __dlm_shared_at 6 format; or __dlm_shared_at 7 format; or __dlm_shared_at 8 format' -a 'nodsync files'
complete -c dlm-shared -n '__dlm_shared_at 3 submit table mark take' -a '(seq 0 15)' -d 'host'
complete -c dlm-shared -n '__dlm_shared_at 4 submit' -a 'enqueue convert release cancel status purge forget' -d 'command'
complete -c dlm-shared -n '__dlm_shared_command_at 7 purge' -a '(seq 0 15)' -d 'host'
complete -c dlm-shared -n '__dlm_shared_command_at 8 enqueue convert' -a 'NL CR CW PR PW EX' -d 'mode'
complete -c dlm-shared -n '__dlm_shared_command_at 10 enqueue' -a noqueue
complete -c dlm-shared -n '__dlm_shared_command_at 9 convert' -a 'noqueue value'
complete -c dlm-shared -n '__dlm_shared_command_at 10 convert; and not contains -- value (commandline -opc)' -a value
complete -c dlm-shared -n '__dlm_shared_command_at 8 release' -a value
