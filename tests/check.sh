#!/usr/bin/env bash
# check.sh [FOLDER..]: runs each script NAME.dlm at and below the folders (none: scripts/) by ./dlm run, and compares what is printed
# with NAME.out, what is told on standard error with NAME.err (none: nothing) and the status with NAME.status (none: 0). Where there is
# a NAME.sweep, ./dlm sweep has to print that, and tell nothing.
set -uo pipefail

source "$(dirname -- "$(readlink -f -- "${BASH_SOURCE[0]}")")/lib.sh"
need_program
[[ $# -gt 0 ]] || set -- "$tests/scripts"

: >"$work/empty"
echo 0 >"$work/zero"

# The file that has what is wanted, or the one that stands for it.
wanted() {
    if [[ -e $1 ]]; then echo "$1"; else echo "$2"; fi
}

# Runs the script, sweeps it where that is wanted, and tells what differs.
check() {
    local name=${1%.dlm}
    "$program" run "$1" >"$work/out" 2>"$work/err" </dev/null
    echo $? >"$work/status"
    diff -u -- "$(wanted "$name.out" "$work/empty")" "$work/out" &&
        diff -u -- "$(wanted "$name.err" "$work/empty")" "$work/err" &&
        diff -u -- "$(wanted "$name.status" "$work/zero")" "$work/status" &&
        { [[ ! -e $name.sweep ]] || "$program" sweep "$1" 2>&1 </dev/null | diff -u -- "$name.sweep" -; }
}

count=0
while IFS= read -r script; do
    count=$((count + 1))
    if ! check "$script"; then
        echo "$script: differs"
        failed=$((failed + 1))
    fi
done < <(find "$@" -name '*.dlm' | LC_ALL=C sort)

echo "$count scripts, $failed differ"
[[ $count -gt 0 && $failed -eq 0 ]]
