#!/usr/bin/env bash
# Faults of files: full disks, an image that can only be read, one that is cut off, also while a command is submitted, one of
# zeros and one of another cluster, marks that are missing or damaged. Each is told by the right refusal, and nothing is lost on the others.
set -uo pipefail

source "$(dirname -- "$(readlink -f -- "${BASH_SOURCE[0]}")")/lib.sh"
need_program

# A folder of three images with one acknowledged command.
fresh() {
    rm -rf -- "$work/d"
    mkdir -- "$work/d"
    chmod 777 -- "$work" "$work/d"
    "$program" format "$work/d" 3 16 7 >/dev/null
    "$program" submit "$work/d" 0 enqueue 1 1 1 EX db >/dev/null
}

# Runs words where no file may grow beyond so many blocks of 1,024 bytes.
limited() {
    (
        trap '' XFSZ
        ulimit -f "$1"
        shift
        exec "$@"
    )
}

# Runs words as somebody who may not write what is read only.
as_nobody() {
    if [[ $(id -u) -eq 0 ]]; then
        setpriv --reuid=65534 --regid=65534 --clear-groups "$@"
    else
        "$@"
    fi
}

# poke DISK PLACE BYTE: puts a byte, three octal digits, into an image.
poke() {
    printf '%b' "\\0$3" | dd of="$work/d/disk$1.img" bs=1 seek="$2" conv=notrunc status=none
}

held=$'recovered 1\ndb\n  granted 1 1 0 EX'

# A full disk: what was made is removed, and the same words make the images once there is room.
mkdir -- "$work/full"
expect "format on a full disk" 1 "dlm: 26 Unreadable disk0" limited 48 "$program" format "$work/full" 3 16 7
expect "what is left of it" 0 "" ls -A -- "$work/full"
expect "a table of it" 1 "dlm: 26 Unreadable disk0" "$program" table "$work/full" 0
expect "format again" 0 "formatted 3 disks, 16 slots" "$program" format "$work/full" 3 16 7

# A disk that is full at the third image: the two before it are no cluster either.
mkdir -- "$work/small"
if mount -t tmpfs -o size=200k small "$work/small" 2>/dev/null; then
    expect "format on a disk with room for two images" 1 "dlm: 26 Unreadable disk2" "$program" format "$work/small" 3 16 7
    expect "what is left of them" 0 "" ls -A -- "$work/small"
    expect "a table of them" 1 "dlm: 26 Unreadable disk0" "$program" table "$work/small" 0
    expect "two images" 0 "formatted 2 disks, 16 slots" "$program" format "$work/small" 2 16 7
    umount -- "$work/small"
else
    echo "left out: faults.sh, a disk that is full at the third image: no root, or no tmpfs"
fi

# No write gets through, on any disk.
fresh
expect "submit on full disks" 1 "dlm: 7 NoMajority" limited 2 "$program" submit "$work/d" 1 enqueue 2 1 2 EX db
expect "after full disks" 0 "$held" "$program" table "$work/d" 2

# Read only: that image is a disk that fails. With two of them there is no majority.
fresh
cp -- "$program" "$work/dlm"
chmod 666 -- "$work"/d/*.img
chmod 444 -- "$work/d/disk0.img"
expect "one read only" 0 "$held" as_nobody "$work/dlm" table "$work/d" 2
chmod 444 -- "$work/d/disk2.img"
expect "two read only" 1 "dlm: 7 NoMajority" as_nobody "$work/dlm" table "$work/d" 2
chmod 444 -- "$work/d/disk1.img"
expect "all read only" 1 "dlm: 26 Unreadable disk0" as_nobody "$work/dlm" table "$work/d" 2
chmod 666 -- "$work"/d/*.img
expect "written again" 0 "$held" as_nobody "$work/dlm" table "$work/d" 2

# Cut off.
fresh
truncate -s 2000 -- "$work/d/disk0.img"
expect "one cut off" 0 "$held" "$program" table "$work/d" 2
truncate -s 2000 -- "$work/d/disk1.img"
expect "two cut off" 1 "dlm: 7 NoMajority" "$program" table "$work/d" 2

# Zeros, and another cluster's image.
fresh
dd if=/dev/zero of="$work/d/disk2.img" bs=73728 count=1 status=none
expect "one of zeros" 0 "ack 1 Queued" "$program" submit "$work/d" 4 enqueue 2 1 2 EX db
fresh
mkdir -- "$work/other"
"$program" format "$work/other" 3 16 8 >/dev/null
cp -- "$work/d/disk1.img" "$work/kept"
cp -- "$work/other/disk1.img" "$work/d/disk1.img"
expect "another cluster's" 1 "dlm: 25 WrongHeader disk1" "$program" table "$work/d" 2
cp -- "$work/kept" "$work/d/disk1.img"
expect "its own again" 0 "$held" "$program" table "$work/d" 2

# Host 0's block of slot 0 without its mark, as the gate of the marked copy is closed: on one image, on two, on all.
fresh
poke 0 8192 000
expect "a mark on two images" 0 "$held" "$program" table "$work/d" 3
poke 1 8192 000
expect "a mark on one image" 0 "$held" "$program" table "$work/d" 4
poke 2 8192 000
expect "no mark" 0 "$held" "$program" table "$work/d" 5

# A mark of 2 damages its row: that disk does not count for the slot.
fresh
poke 0 8195 002
expect "one damaged mark" 0 "$held" "$program" table "$work/d" 3
poke 1 8195 002
expect "two damaged marks" 1 "dlm: 7 NoMajority" "$program" table "$work/d" 3
expect "a command after two damaged marks" 1 "dlm: 7 NoMajority" "$program" submit "$work/d" 3 enqueue 2 1 2 EX db

# A look asks disk 0 first, and then the others, until half or more have failed: a mark that it comes upon before that tells the slot.
for sound in 0 1; do
    fresh
    for disk in 0 1 2; do
        [[ $disk -eq $sound ]] || poke "$disk" 8195 002
    done
    expect "a mark on disk $sound alone" 0 "$held" "$program" table "$work/d" 3
    expect "a command after that mark" 0 "ack 1 Queued" "$program" submit "$work/d" 3 enqueue 2 1 2 EX db
    expect "the same command" 1 "dlm: 7 NoMajority" "$program" submit "$work/d" 3 enqueue 2 1 2 EX db
    expect "a check of them" 1 "$(for disk in 0 1 2; do [[ $disk -eq $sound ]] || echo "disk$disk slot 0 host 0 damaged"; done; echo "dlm: 5 Damaged")" "$program" check "$work/d"
done

# Each slot of a full log is marked: what is left of it on one disk is all.
rm -rf -- "$work/d"
mkdir -- "$work/d"
"$program" format "$work/d" 3 1 7 >/dev/null
"$program" submit "$work/d" 0 enqueue 1 1 1 EX db >/dev/null
expect "fill of a full log" 0 "filled 0 slots" "$program" fill "$work/d" 3
poke 1 8195 002
poke 2 8195 002
expect "fill of a full log with two damaged marks" 0 "filled 0 slots" "$program" fill "$work/d" 3
expect "a table of it" 0 "$held" "$program" table "$work/d" 3
poke 0 8195 002
expect "fill without a mark" 1 "dlm: 7 NoMajority" "$program" fill "$work/d" 3

# Cut off under way: what is acknowledged stands on the two others.
for turn in 1 2 3 4 5 6 7 8 9 10; do
    fresh
    "$program" submit "$work/d" 5 enqueue 2 1 2 EX db >"$work/out" 2>&1 &
    [[ $((turn % 2)) -eq 0 ]] && sleep "0.00$((turn % 5))"
    truncate -s $((4096 * turn)) -- "$work/d/disk$((turn % 3)).img"
    wait $!
    rm -- "$work/d/disk$((turn % 3)).img"
    "$program" table "$work/d" 6 >"$work/table" 2>&1
    if [[ $(<"$work/out") == "ack 1 Queued" ]]; then
        grep -q "^  waiting 2 2 5 EX$" "$work/table" || { echo "cut off under way: lock 2 is lost"; failed=$((failed + 1)); }
    fi
    grep -q "^  granted 1 1 0 EX$" "$work/table" || { echo "cut off under way: lock 1 is lost"; failed=$((failed + 1)); }
done

[[ $failed -eq 0 ]] && echo "faults of files: each told, nothing lost"
exit $((failed > 0))
