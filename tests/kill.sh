#!/usr/bin/env bash
# kill.sh [KILLS]: submits commands by several hosts, one at a time, over the images of a folder, and kills most of the
# processes (`kill -9`) at random moments, until so many were killed (none given: 200). After each kill it compares `dlm table`
# with what was acknowledged: no acknowledged command may be missing. After each forty it also looks at the images: their headers
# are those of `dlm format`, and with any one of them taken away the acknowledged commands are still there.
# A process that is killed after its line was printed has marked its slot on some images, on all, or on none.
set -uo pipefail

kills=${1:-200}

# In memory where there is such a folder: what is tested is the order of the calls, not the device.
[[ ! -w /dev/shm ]] || work_in=/dev/shm
source "$(dirname -- "$(readlink -f -- "${BASH_SOURCE[0]}")")/lib.sh"
need_program

killed=0
finished=0
acknowledged=0
marking=0
late=0
longest=10000

fail() {
    echo "after $killed kills: $1"
    exit 1
}

# The locks that the table of the folder shows, in `found`.
declare -A found
look() {
    found=()
    local kind lock rest
    while read -r kind lock rest; do
        [[ $kind == granted ]] && found[$lock]=1
    done < <("$program" table "$1" $((RANDOM % 16)) 2>"$work/told" || echo failed)
    [[ ! -s $work/told ]] || fail "dlm table tells: $(<"$work/told")"
}

# Every lock that was acknowledged is there.
compare() {
    look "$1"
    local lock
    for lock in "${acked[@]}"; do
        [[ -n ${found[$lock]:-} ]] || fail "lock $lock was acknowledged, and is not in the table of $1"
    done
}

# A round of forty kills on fresh images.
round() {
    local folder=$work/folder lock=0 last=0 until=$1 host pause ended
    rm -rf -- "$folder" "$work/apart"
    mkdir -- "$folder"
    "$program" format "$folder" 3 256 7 >/dev/null || fail "no images"
    cp -r -- "$folder" "$work/fresh"
    acked=()
    while [[ $killed -lt $until && $lock -lt 200 ]]; do
        lock=$((lock + 1))
        host=$((RANDOM % 16))
        pause=$((500 + (RANDOM * 32768 + RANDOM) % longest))
        # The shell tells of each that it was killed: that goes nowhere. In the foreground `timeout` waits until the process is gone, and its lock with it.
        {
            timeout --foreground -s KILL "$(printf '0.%06d' "$pause")" \
                "$program" submit "$folder" "$host" enqueue $((lock % 32)) "$lock" "$lock" NL a >"$work/out" 2>"$work/told"
            ended=$?
        } 2>/dev/null
        if [[ $(<"$work/out") == "ack "*" Granted" ]]; then
            acked+=("$lock")
            last=$lock
            acknowledged=$((acknowledged + 1))
        fi
        if [[ $ended -eq 137 ]]; then
            killed=$((killed + 1))
            longest=$((longest + longest / 50))
            compare "$folder"
            if [[ $last -eq $lock ]]; then
                marking=$((marking + 1))
            elif [[ -n ${found[$lock]:-} ]]; then
                late=$((late + 1))
            fi
        elif [[ $ended -eq 0 || ($ended -eq 124 && ! -s $work/told) ]]; then
            # 124: it came to its end in the very moment.
            finished=$((finished + 1))
            longest=$((longest - longest / 50))
        else
            fail "dlm submit ended with $ended: $(<"$work/told")"
        fi
    done
    whole "$folder"
    rm -rf -- "$work/fresh"
}

# Headers and lengths are as they were made, and no image is needed alone.
whole() {
    local k
    for k in 0 1 2; do
        cmp -s -n 1024 -- "$1/disk$k.img" "$work/fresh/disk$k.img" || fail "the header of disk$k.img is another"
        [[ $(stat -c %s -- "$1/disk$k.img") -eq $(stat -c %s -- "$work/fresh/disk$k.img") ]] || fail "disk$k.img has another length"
    done
    for k in 0 1 2; do
        rm -rf -- "$work/apart"
        cp -r -- "$1" "$work/apart"
        rm -- "$work/apart/disk$k.img"
        compare "$work/apart"
    done
}

while [[ $killed -lt $kills ]]; do
    next=$((killed + 40))
    round $((next < kills ? next : kills))
done
echo "$killed killed, $marking of them after their line, $finished came to their end; $acknowledged acknowledged, none lost; $late of the killed were in the log without a line"
