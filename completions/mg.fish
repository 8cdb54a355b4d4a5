# Completion for fish of mg: words, options, folders and scripts. Made by capi/mg_pages.py.

# How many words stand behind the first one that are no options.
function __mg_given
    set -l words (commandline -opc)
    set -l given 0
    set -l skips 0
    for word in $words[3..]
        if test $skips -eq 1
            set skips 0
        else if contains -- $word --cluster --disks --slots --host --mode -m --wait -w --conflict-exit-code -E --check -k --interval -i --command -c --every
            set skips 1
        else if not string match -q -- '-*' $word
            set given (math $given + 1)
        end
    end
    echo $given
end

# Whether the first word is this one, and so many words are given behind it.
function __mg_at
    set -l words (commandline -opc)
    test (count $words) -ge 2; and test $words[2] = $argv[1]; and test (__mg_given) -eq $argv[2]
end

function __mg_word
    set -l words (commandline -opc)
    test (count $words) -ge 2; and test $words[2] = $argv[1]
end

complete -c mg -f
complete -c mg -n 'test (count (commandline -opc)) -eq 1' -a create -d 'make the images of a folder'
complete -c mg -n 'test (count (commandline -opc)) -eq 1' -a lock -d 'run a command under a lock'
complete -c mg -n 'test (count (commandline -opc)) -eq 1' -a take -d 'take a lock that stays when mg ends'
complete -c mg -n 'test (count (commandline -opc)) -eq 1' -a give -d 'give back what mg take took'
complete -c mg -n 'test (count (commandline -opc)) -eq 1' -a status -d 'show slots, disks and locks'
complete -c mg -n 'test (count (commandline -opc)) -eq 1' -a watch -d 'show the status again and again'
complete -c mg -n 'test (count (commandline -opc)) -eq 1' -a recover -d 'release what killed processes left'
complete -c mg -n 'test (count (commandline -opc)) -eq 1' -a submit -d 'put a command into the log'
complete -c mg -n 'test (count (commandline -opc)) -eq 1' -a table -d 'show the lock table'
complete -c mg -n 'test (count (commandline -opc)) -eq 1' -a mark -d 'mark what has no mark'
complete -c mg -n 'test (count (commandline -opc)) -eq 1' -a check -d 'look for damage in the images'
complete -c mg -n 'test (count (commandline -opc)) -eq 1' -a migrate -d 'make a log that ends endless'
complete -c mg -n 'test (count (commandline -opc)) -eq 1' -a replace -d 'make a new image in the place of a lost one'
complete -c mg -n 'test (count (commandline -opc)) -eq 1' -a run -d 'run a script over disks in memory'
complete -c mg -n 'test (count (commandline -opc)) -eq 1' -a sweep -d 'run a script with each single fault'
complete -c mg -n 'test (count (commandline -opc)) -eq 1' -a help -d 'show the words'
complete -c mg -n '__mg_at help 0' -a 'create lock take give status watch recover submit table mark check migrate replace run sweep'
complete -c mg -n '__mg_at create 0' -a '(__fish_complete_directories)'
complete -c mg -n '__mg_word create' -l cluster -x -d 'another number for each folder; without it one at random'
complete -c mg -n '__mg_word create' -l disks -x -a '(seq 1 7)' -d 'how many images; 3 without it'
complete -c mg -n '__mg_word create' -l slots -x -d 'the log ends after so many commands; without it, it has no end'
complete -c mg -n '__mg_word create' -l json -d 'for programs: one object'
complete -c mg -n '__mg_at lock 0' -a '(__fish_complete_directories)'
complete -c mg -n '__mg_word lock' -l host -x -a '(seq 0 15)' -d 'the host number; without it mg chooses one'
complete -c mg -n '__mg_word lock' -s m -l mode -x -a 'NL CR CW PR PW EX' -d 'the mode; EX without it'
complete -c mg -n '__mg_word lock' -s s -l shared -d 'the mode PR: others may have PR, too'
complete -c mg -n '__mg_word lock' -s x -l exclusive -d 'the mode EX'
complete -c mg -n '__mg_word lock' -s w -l wait -x -d 'wait no longer, as 2.5'
complete -c mg -n '__mg_word lock' -s n -l nonblock -d 'do not wait'
complete -c mg -n '__mg_word lock' -s E -l conflict-exit-code -x -d 'the status where the lock is not granted; 1 without it'
complete -c mg -n '__mg_word lock' -s k -l check -x -d 'look so often whether the lock was taken away, and end COMMAND then'
complete -c mg -n '__mg_word lock' -s i -l interval -x -d 'the longest pause between looks, in milliseconds; 5 without it'
complete -c mg -n '__mg_word lock' -s v -l value -d 'print the value of NAME first'
complete -c mg -n '__mg_word lock' -s o -l close -d 'COMMAND does not keep the lock if its mg-lock is killed'
complete -c mg -n '__mg_word lock' -l verbose -d 'say how long it waited'
complete -c mg -n '__mg_word lock' -s c -l command -x -d 'in place of COMMAND: the shell runs LINE, which is one word'
complete -c mg -n '__mg_at take 0' -a '(__fish_complete_directories)'
complete -c mg -n '__mg_word take' -l host -x -a '(seq 0 15)' -d 'the host number; without it mg chooses one'
complete -c mg -n '__mg_word take' -s m -l mode -x -a 'NL CR CW PR PW EX' -d 'the mode; EX without it'
complete -c mg -n '__mg_word take' -s w -l wait -x -d 'wait no longer, as 2.5'
complete -c mg -n '__mg_word take' -l json -d 'for programs: one object'
complete -c mg -n '__mg_at give 0' -a '(__fish_complete_directories)'
complete -c mg -n '__mg_at status 0' -a '(__fish_complete_directories)'
complete -c mg -n '__mg_word status' -l json -d 'for programs: one object'
complete -c mg -n '__mg_word status' -l prometheus -d 'for node_exporter of Prometheus'
complete -c mg -n '__mg_at watch 0' -a '(__fish_complete_directories)'
complete -c mg -n '__mg_word watch' -l every -x -d 'the pause between two looks; 2 without it'
complete -c mg -n '__mg_at recover 0' -a '(__fish_complete_directories)'
complete -c mg -n '__mg_word recover' -l host -x -a '(seq 0 15)' -d 'of this host number alone; without it of each one that is in use by nobody'
complete -c mg -n '__mg_word recover' -l all -d 'also locks without a sign of life: only when the machine has just started'
complete -c mg -n '__mg_word recover' -l json -d 'for programs: one object'
complete -c mg -n '__mg_at submit 0' -a '(__fish_complete_directories)'
complete -c mg -n '__mg_word submit' -l host -x -a '(seq 0 15)' -d 'the host number; without it mg chooses one'
complete -c mg -n '__mg_word submit' -l json -d 'for programs: one object'
complete -c mg -n '__mg_at table 0' -a '(__fish_complete_directories)'
complete -c mg -n '__mg_word table' -l host -x -a '(seq 0 15)' -d 'the host number; without it mg chooses one'
complete -c mg -n '__mg_word table' -l json -d 'for programs: one object'
complete -c mg -n '__mg_at mark 0' -a '(__fish_complete_directories)'
complete -c mg -n '__mg_word mark' -l host -x -a '(seq 0 15)' -d 'the host number; without it mg chooses one'
complete -c mg -n '__mg_word mark' -l json -d 'for programs: one object'
complete -c mg -n '__mg_at check 0' -a '(__fish_complete_directories)'
complete -c mg -n '__mg_word check' -l json -d 'for programs: one object'
complete -c mg -n '__mg_at migrate 0' -a '(__fish_complete_directories)'
complete -c mg -n '__mg_word migrate' -l json -d 'for programs: one object'
complete -c mg -n '__mg_at replace 0' -a '(__fish_complete_directories)'
complete -c mg -n '__mg_word replace' -l json -d 'for programs: one object'
complete -c mg -n '__mg_at run 0' -a '(__fish_complete_path)'
complete -c mg -n '__mg_at sweep 0' -a '(__fish_complete_path)'
complete -c mg -n '__mg_at submit 1' -a 'enqueue convert release cancel status purge forget'
complete -c mg -n '__mg_at replace 1' -a '0 1 2 3 4 5 6'
complete -c mg -n '__mg_at submit 5' -a 'NL CR CW PR PW EX'
complete -c mg -n '__mg_word lock; and test (__mg_given) -ge 2' -F
