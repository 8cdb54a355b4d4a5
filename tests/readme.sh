#!/usr/bin/env bash
# readme.sh BEGINNING [TIMES]: runs the one command of README that begins so, as a user copies it, so many times in a row (none given: once). All that
# it prints and tells has to be what stands in the block below it.
set -uo pipefail

source "$(dirname -- "$(readlink -f -- "${BASH_SOURCE[0]}")")/lib.sh"
times=${2:-1}

# The command stands in a block of its own, which says that it is of the shell.
awk -v begins="$1" -v command="$work/command" -v wanted="$work/wanted" '
    /^```/ { inside = !inside; if (inside) shell = ($0 == "```sh"); if (inside && found) { found = 0; below = 1; next } below = 0; next }
    inside && shell && index($0, begins) == 1 { print > command; found = 1 }
    inside && below { print > wanted }' "$top/README.md"
if [[ ! -s $work/command || ! -s $work/wanted ]]; then
    echo "README has no command that begins with: $1"
    exit 1
fi
cd -- "$top" || exit
mkdir -- "$work/folders"
for ((run = 1; run <= times; run++)); do
    TMPDIR=$work/folders bash "$work/command" 2>&1 < /dev/null | diff -u --label README.md --label "run $run" "$work/wanted" - || exit 1
done
echo "its command prints what README says, $times of $times times"
