#!/usr/bin/env bash
# all.sh: the tests of the program, by the proved one: all scripts of tests/scripts/ and examples/, those with epochs by a plain table, words, folders, races, faults of files, damaged
# images, kills, migrations, logs made endless in place, lost images that are replaced, renewals, hosts at once, and logs without an end. `rt ci` is the gate, which proves; it stands beside.
# The last line counts the tests, and the status is 1 where one failed.
set -uo pipefail

source "$(dirname -- "$(readlink -f -- "${BASH_SOURCE[0]}")")/lib.sh"
need_program
passed=0

# try TEST WORD..: runs a test, and prints its last line and what it says that it left out, or all that it printed where it failed.
try() {
    local test=$1 last
    shift
    if "$tests/$test" "$@" > "$work/told" 2>&1 < /dev/null; then
        grep '^left out: ' "$work/told"
        last=$(tail -n 1 -- "$work/told")
        echo "$test: ${last#"$test: "}"
        passed=$((passed + 1))
    else
        cat -- "$work/told"
        echo "$test: FAILED"
        failed=$((failed + 1))
    fi
}

try check.sh "$tests/scripts" "$top/examples"
try epoch_scripts.py
try program.py
try closed.py
[[ ! -x $top/crates/mg/out/mg ]] || try mg_folder.py
try race.sh
try faults.sh
try check_images.sh
try kill.sh 40
try migrate.py --kills 40
try in_place.py
try replace.py
try renew.py --kills 40 --long 5
try at_once.py --rounds 2 --seconds 4
try endless.py
try endless_long.py
echo "$passed passed, $failed failed"
[[ $failed -eq 0 ]]
