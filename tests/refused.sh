#!/usr/bin/env bash
# Refused memory: scripts are run under ever larger limits of the address space, each request for memory being a mapping of
# its own, so that one request after another is the first that is refused. Each run prints a beginning of what is printed
# with ample memory, to the end of a line, and tells `21 NoMemory`, until one prints all. Then the operations of a cluster, by `bench refused`.
set -uo pipefail

source "$(dirname -- "$(readlink -f -- "${BASH_SOURCE[0]}")")/lib.sh"
need_program
bench=$top/crates/bench/out/bench
source "$top/build.sh"
(ensure_built bench) >/dev/null
if [[ ! -x $bench ]]; then
    echo "bench is not built"
    exit 1
fi
tunables=glibc.malloc.mmap_threshold=1:glibc.malloc.mmap_max=1000000:glibc.malloc.top_pad=0

# refuse NAME WORD..: the words of dlm under each limit.
refuse() {
    local name=$1 limit status length refused=0 whole=0
    shift
    "$program" "$@" >"$work/want" || { echo "$name: does not run"; failed=$((failed + 1)); return; }
    for ((limit = 2048; limit < 65536; limit += 4)); do
        {
            (
                export GLIBC_TUNABLES=$tunables
                ulimit -v "$limit"
                exec "$program" "$@" >"$work/out" 2>"$work/err"
            )
            status=$?
        } 2>/dev/null
        case $status in
            0) whole=1; cmp -s "$work/out" "$work/want" || { echo "$name: other output at $limit KB"; failed=$((failed + 1)); }; break ;;
            1) ;;
            *) continue ;; # the program does not start yet
        esac
        refused=$((refused + 1))
        length=$(stat -c %s "$work/out")
        if [[ $(<"$work/err") != "dlm: 21 NoMemory" ]] || ! cmp -s "$work/out" <(head -c "$length" "$work/want") \
            || { [[ $length -gt 0 ]] && [[ $(tail -c 1 "$work/out" | od -An -tx1) != " 0a" ]]; }; then
            echo "$name: status $status at $limit KB, told: $(<"$work/err")"
            failed=$((failed + 1))
        fi
    done
    [[ $whole -eq 1 && $refused -gt 10 ]] || { echo "$name: refused $refused times, ran to its end: $whole"; failed=$((failed + 1)); }
    echo "$name: refused under $refused limits"
}

# refuse_cluster: `bench refused` takes all the memory that a limit leaves, but for some pages, gives it back at the first refusal, and makes
# the call again. It ends with status 1 where that comes to anything else than with ample memory. Each kind of call is to be refused somewhere.
refuse_cluster() {
    (
        export GLIBC_TUNABLES=$tunables
        ulimit -v 16384
        exec "$bench" refused >"$work/out" 2>"$work/err"
    )
    local status=$?
    if [[ $status -ne 0 || $(cut -d ' ' -f 1 "$work/out" | tr '\n' ' ') != "submissions calls marks restarts " ]] \
        || grep -q ' 0$' "$work/out"; then
        echo "cluster: status $status, told: $(<"$work/err")"
        failed=$((failed + 1))
    fi
    echo "cluster: refused in $(tr '\n' ' ' <"$work/out")"
}

script() {
    local name=$1
    shift
    printf '%s\n' "$@" >"$work/$name"
}

script first_reply 'cluster 1 4' 'start 0' 'submit 0 1 enqueue 1 1 10 EX db' 'step 0 17'
script recoveries_in_turn 'cluster 3 2' 'start 0' 'submit 0 1 enqueue 1 1 1 EX db' 'step 0 36' 'stop 0' 'start 1' 'recover 1 1' 'fail 1 00' \
    'step 1 20' 'start 0' 'recover 0 1' 'step 0 81' 'recover 1 1' 'step 1 81'
script repeated_request 'cluster 1 4' 'start 0' 'start 1' 'submit 0 1 enqueue 1 1 1 EX db' 'step 0 17' 'submit 1 1 enqueue 1 1 1 EX db' \
    'step 1 34' 'show 1'
script deadlock 'cluster 1 8' 'start 0' 'submit 0 1 enqueue 1 1 1 PR a' 'step 0 17' 'submit 0 1 enqueue 2 1 2 PR a' 'step 0 17' 'blocking 0' \
    'submit 0 1 convert 1 2 1 EX' 'step 0 17' 'submit 0 1 convert 2 2 2 EX' 'step 0 17' 'blocking 0'
script marked 'cluster 3 4' 'start 0' 'submit 0 1 enqueue 1 1 1 EX db' 'step 0 51' 'mark 0 0' 'step 0 27' 'start 1' 'recover 1 1' 'step 1 39'
for name in first_reply recoveries_in_turn repeated_request deadlock marked; do
    refuse "$name" run "$work/$name"
done
refuse "sweep of first_reply" sweep "$work/first_reply"
refuse_cluster
exit $((failed > 0))
