#!/usr/bin/env bash
# images.sh [FOLDER]: times `dlm submit` on three images with an empty log, and `dlm table` on 1,000 and on 4,000 commands, with no
# slot marked and with all of them, beside the same system calls in plain Rust (images.rs): both in one run and on copies of the same
# images, in FOLDER (none: in memory). Where strace is there, it counts both programs' syncs, writes and reads.
set -euo pipefail

here=$(dirname -- "$(readlink -f -- "${BASH_SOURCE[0]}")")
top=$(dirname -- "$(dirname -- "$(dirname -- "$here")")")
"$top/dlm" run /dev/null >/dev/null 2>&1 || true
dlm=$top/crates/dlm/out/dlm
plain=$here/../out/images
mkdir -p -- "$here/../out"
rustc -O --edition 2024 -o "$plain" "$here/images.rs"

work=$(mktemp -d -p "${1:-/dev/shm}")
trap 'rm -r -- "$work"' EXIT
mkdir -- "$work/empty"
"$dlm" format "$work/empty" 3 16 7 >/dev/null
for slots in 1000 4000; do
    for kind in unmarked marked; do
        mkdir -- "$work/$kind-$slots"
        "$dlm" format "$work/$kind-$slots" 3 $((slots + 96)) 7 >/dev/null
        "$plain" fill "$work/$kind-$slots" "$slots" "$kind"
    done
done

# A fresh copy of a folder.
fresh() {
    rm -rf -- "$work/copy"
    cp -r -- "$1" "$work/copy"
}

# The microseconds of words on a fresh copy of a folder.
total=0
one() {
    local start
    fresh "$1"
    shift
    start=$EPOCHREALTIME
    "$@" >"$work/out"
    total=$((${EPOCHREALTIME//./} - ${start//./}))
}

# The syncs, writes and reads of words on a fresh copy of a folder.
calls() {
    fresh "$1"
    shift
    if command -v strace >/dev/null; then
        strace -f -e trace=fdatasync,pwrite64,pread64 -o "$work/calls" "$@" >"$work/out"
        grep -c -E 'fdatasync|pwrite64|pread64' "$work/calls"
    else
        echo -
    fi
}

# compare NAME RUNS FOLDER: the middle time of both, run in turn, and their calls.
compare() {
    local name=$1 runs=$2 from=$3 proved=() by_hand=() run
    for ((run = 0; run < runs; run++)); do
        one "$from" "${first[@]}"
        proved+=("$total")
        one "$from" "${second[@]}"
        by_hand+=("$total")
    done
    local a b
    a=$(printf '%s\n' "${proved[@]}" | sort -n | sed -n "$((runs / 2 + 1))p")
    b=$(printf '%s\n' "${by_hand[@]}" | sort -n | sed -n "$((runs / 2 + 1))p")
    printf '%-20s %10d us %10d us   %-6s %10s %10s\n' "$name" "$a" "$b" "$(awk -v a="$a" -v b="$b" 'BEGIN { printf "%.2f", a / b }')" \
        "$(calls "$from" "${first[@]}")" "$(calls "$from" "${second[@]}")"
}

printf '%-20s %13s %13s   %-6s %10s %10s\n' "middle of the runs" proved plain ratio calls plain
first=("$dlm" submit "$work/copy" 0 status 1 1 1)
second=("$plain" submit "$work/copy")
compare submit 200 "$work/empty"
for slots in 1000 4000; do
    for kind in unmarked marked; do
        first=("$dlm" table "$work/copy" 1)
        second=("$plain" table "$work/copy" "$slots" "$kind")
        compare "${kind}_$slots" 20 "$work/$kind-$slots"
    done
done
