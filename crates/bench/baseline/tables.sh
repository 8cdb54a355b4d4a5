#!/usr/bin/env bash
# tables.sh: what commands to a lock table take by their kind, at some 8 and 256 locks, all on one name or each on a name of its own,
# beside two tables in plain Rust (tables.rs), a flat list and maps. The shortest of three runs of each; `rt run` has to have built `bench`.
set -euo pipefail

here=$(dirname -- "$(readlink -f -- "${BASH_SOURCE[0]}")")
proved=$here/../out/bench
plain=$here/../out/tables
rustc -O --edition 2024 -o "$plain" "$here/tables.rs"

printf '%-18s %8s %8s %8s %10s %10s\n' 'kind_locks_names' proved flat maps 'of flat' 'of maps'
paste -d ' ' <("$proved" tables) <("$proved" tables) <("$proved" tables) <("$plain") <("$plain") <("$plain") | awk '
    function least(a, b, c) { return a < b ? (a < c ? a : c) : (b < c ? b : c) }
    $1 != $3 || $1 != $5 || $1 != $7 { print "tables.sh: the programs printed different lines" > "/dev/stderr"; exit 1 }
    {
        proved = least($2, $4, $6); flat = least($8, $11, $14); maps = least($9, $12, $15)
        printf "%-18s %8.1f %8.1f %8.1f %10.2f %10.2f\n", $1, proved, flat, maps, proved / flat, proved / maps
    }'
