# Completion for fish of dlm: tasks, folders and scripts, hosts, commands, modes.

# Whether so many words stand in front, the second of which is one of the given tasks.
function __dlm_at
    set -l words (commandline -opc)
    test (count $words) -eq $argv[1]; and contains -- $words[2] $argv[2..]
end

# Whether so many words stand in front, of a submission whose command is one of the given ones.
function __dlm_command_at
    set -l words (commandline -opc)
    test (count $words) -eq $argv[1]; and test "$words[2]" = submit; and contains -- $words[5] $argv[2..]
end

complete -c dlm -f
complete -c dlm -n 'test (count (commandline -opc)) -eq 1' -a run -d 'run a script'
complete -c dlm -n 'test (count (commandline -opc)) -eq 1' -a format -d 'make a folder of images'
complete -c dlm -n 'test (count (commandline -opc)) -eq 1' -a submit -d 'submit a command'
complete -c dlm -n 'test (count (commandline -opc)) -eq 1' -a table -d 'show the lock table'
complete -c dlm -n 'test (count (commandline -opc)) -eq 1' -a mark -d 'mark the slots that have no mark'
complete -c dlm -n 'test (count (commandline -opc)) -eq 1' -a check -d 'look for damage in images'
complete -c dlm -n 'test (count (commandline -opc)) -eq 1' -a migrate -d 'make a log endless, or move a folder of the first layout'
complete -c dlm -n 'test (count (commandline -opc)) -eq 1' -a replace -d 'put a new image in the place of a lost one'
complete -c dlm -n 'test (count (commandline -opc)) -eq 1' -a fill -d 'fill a log up'
complete -c dlm -n 'test (count (commandline -opc)) -eq 1' -a renew -d 'carry the table of a full log over'
complete -c dlm -n 'test (count (commandline -opc)) -eq 1' -a race -d 'race host threads'
complete -c dlm -n 'test (count (commandline -opc)) -eq 1' -a sweep -d 'run the variants of a script'
complete -c dlm -n '__dlm_at 2 run sweep' -F
complete -c dlm -n '__dlm_at 2 format submit table mark check migrate replace fill renew' -a '(__fish_complete_directories)'
complete -c dlm -n '__dlm_at 3 migrate' -a '(__fish_complete_directories)'
complete -c dlm -n '__dlm_at 4 renew' -a '(__fish_complete_directories)'
complete -c dlm -n '__dlm_at 2 race' -a '(seq 1 16)' -d 'hosts'
complete -c dlm -n '__dlm_at 3 format' -a '(seq 1 7)' -d 'disks'
complete -c dlm -n '__dlm_at 5 renew' -a '(seq 1 7)' -d 'disks'
complete -c dlm -n '__dlm_at 3 replace' -a '(seq 0 6)' -d 'disk'
complete -c dlm -n '__dlm_at 3 submit table mark fill renew' -a '(seq 0 15)' -d 'host'
complete -c dlm -n '__dlm_at 4 submit' -a 'enqueue convert release cancel status purge forget' -d 'command'
complete -c dlm -n '__dlm_command_at 7 purge' -a '(seq 0 15)' -d 'host'
complete -c dlm -n '__dlm_command_at 8 enqueue convert' -a 'NL CR CW PR PW EX' -d 'mode'
complete -c dlm -n '__dlm_command_at 10 enqueue' -a noqueue
complete -c dlm -n '__dlm_command_at 9 convert' -a 'noqueue value'
complete -c dlm -n '__dlm_command_at 10 convert; and not contains -- value (commandline -opc)' -a value
complete -c dlm -n '__dlm_command_at 8 release' -a value
