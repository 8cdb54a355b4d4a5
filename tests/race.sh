#!/usr/bin/env bash
# race.sh [RACES [HOSTS]]: so many races (none given: 100) of so many hosts (none given: 16) by ./dlm race. Each has to end with
# status 0 and `agree`, with a line a host by rising host, and nothing on standard error; the slots that were acknowledged are all
# different, and only the first of the log is `Granted`.
set -uo pipefail

races=${1:-100}
hosts=${2:-16}
source "$(dirname -- "$(readlink -f -- "${BASH_SOURCE[0]}")")/lib.sh"
need_program

# What is wrong with the race whose lines are read, if anything.
wrong() {
    awk -v hosts="$hosts" '
        NR <= hosts && $1 == "host" && $2 == NR - 1 && $3 == "ack" && NF == 5 {
            if ($4 in taken) wrong = wrong " slot " $4 " twice;"
            taken[$4] = 1
            if ($5 != ($4 == 0 ? "Granted" : "Queued")) wrong = wrong " " $5 " in slot " $4 ";"
            next
        }
        NR <= hosts && $1 == "host" && $2 == NR - 1 && $3 == "refused" { refused++; next }
        NR == hosts + 1 && $0 == "agree" { next }
        { wrong = wrong " line " NR ": " $0 ";" }
        END { if (NR != hosts + 1) wrong = wrong " " NR " lines;"; print wrong; exit refused > 0 ? 3 : 0 }'
}

refused=0
for ((race = 1; race <= races; race++)); do
    "$program" race "$hosts" >"$work/out" 2>"$work/err"
    status=$?
    told=$(wrong <"$work/out")
    [[ $? -eq 3 ]] && refused=$((refused + 1))
    if [[ $status -ne 0 || -s $work/err || -n $told ]]; then
        echo "race $race: status $status;$told"
        cat -- "$work/out" "$work/err"
        exit 1
    fi
done
echo "$races races of $hosts hosts agree, $refused with a refusal"
