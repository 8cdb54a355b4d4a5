#!/usr/bin/env bash
# dlm check over images that are damaged by hand: what it prints, the refusal that it ends with, and that no byte of any image changes. The
# places are those of docs/FORMAT.md: host h's heartbeat block at 4096 + 256 * h, its block of slot s at 8192 + 4096 * s + 256 * h.
set -uo pipefail

source "$(dirname -- "$(readlink -f -- "${BASH_SOURCE[0]}")")/lib.sh"
need_program
checks=0

# expect NAME STATUS PRINTED TOLD WORD..: runs the words, and compares their status and what they write on both streams.
expect() {
    local name=$1 status=$2 printed=$3 told=$4 ended
    shift 4
    "$@" >"$work/out" 2>"$work/err" </dev/null
    ended=$?
    checks=$((checks + 1))
    if [[ $ended -ne $status || $(<"$work/out") != "$printed" || $(<"$work/err") != "$told" ]]; then
        echo "$name: status $ended (wanted $status), printed: $(<"$work/out") (wanted: $printed), told: $(<"$work/err") (wanted: $told)"
        failed=$((failed + 1))
    fi
}

# check NAME STATUS PRINTED TOLD: dlm check, which leaves the folder as it was.
check() {
    local before after
    before=$(sha256sum -- "$work"/d/*)
    expect "$@" "$program" check "$work/d"
    after=$(sha256sum -- "$work"/d/*)
    [[ $before == "$after" ]] || { echo "$1: the check changed a file"; failed=$((failed + 1)); }
}

# A folder of three images with one acknowledged command.
fresh() {
    rm -rf -- "$work/d"
    mkdir -- "$work/d"
    "$program" format "$work/d" 3 16 7 >/dev/null
    "$program" submit "$work/d" 0 enqueue 1 1 1 EX db >/dev/null
}

# poke DISK PLACE BYTE: puts a byte, three octal digits, into an image.
poke() {
    printf '%b' "\\0$3" | dd of="$work/d/disk$1.img" bs=1 seek="$2" conv=notrunc status=none
}

held=$'recovered 1\ndb\n  granted 1 1 0 EX'

fresh
check "sound" 0 "sound" ""

# A ballot of host 1 in host 0's block: one disk less for that slot, and with two of them too few.
fresh
poke 0 8215 002
check "one ballot" 1 "disk0 slot 0 host 0 damaged" "dlm: 5 Damaged"
expect "table beside one ballot" 0 "$held" "" "$program" table "$work/d" 1
fresh
poke 0 8215 002
poke 1 8215 002
check "two ballots" 1 $'disk0 slot 0 host 0 damaged\ndisk1 slot 0 host 0 damaged' "dlm: 5 Damaged"
expect "table beside two ballots" 1 "" "dlm: 7 NoMajority" "$program" table "$work/d" 1

# A marked value that is no command: the blocks are sound.
fresh
for disk in 0 1 2; do poke "$disk" 8224 007; done
check "no command" 0 "sound" ""
expect "table of no command" 1 "" "dlm: 10 NotACommand" "$program" table "$work/d" 1

# A header that disagrees refuses every command; of several the lowest is named.
fresh
poke 1 3 005
check "another number of disks" 1 "" "dlm: 25 WrongHeader disk1"
expect "table of another number" 1 "" "dlm: 25 WrongHeader disk1" "$program" table "$work/d" 1
expect "submission to another number" 1 "" "dlm: 25 WrongHeader disk1" "$program" submit "$work/d" 1 status 1 1 1
poke 2 15 010
check "two that disagree" 1 "" "dlm: 25 WrongHeader disk1"

# No right header: the fault of disk 0.
fresh
for disk in 0 1 2; do poke "$disk" 0 000; done
check "no right header" 1 "" "dlm: 24 NotFormatted disk0"
poke 0 0 245
poke 0 1 003
check "no right header, and another version" 1 "" "dlm: 25 WrongHeader disk0"

# Damage, and images that are not used: by image, the heartbeats first, then by slot and host. Three gates are opened over zeros, which are no
# beat and no promise; both copies of host 3's block of slot 9 get one sequence number.
fresh
poke 0 5376 245
poke 0 12032 245
poke 0 73472 245
truncate -s 73727 -- "$work/d/disk1.img"
dd if="$work/d/disk2.img" of="$work/d/disk2.img" bs=1 skip=8192 seek=45824 count=128 conv=notrunc status=none
dd if="$work/d/disk2.img" of="$work/d/disk2.img" bs=1 skip=8192 seek=45952 count=128 conv=notrunc status=none
for copy in 45824 45952; do
    poke 2 $((copy + 23)) 004
    poke 2 $((copy + 31)) 004
done
many=$'disk0 heartbeat host 5 damaged\ndisk0 slot 0 host 15 damaged\ndisk0 slot 15 host 15 damaged\ndisk1 25 WrongHeader\ndisk2 slot 9 host 3 damaged'
check "many" 1 "$many" "dlm: 5 Damaged"
poke 2 45952 000
check "one copy closed" 1 "${many%$'\n'*}" "dlm: 5 Damaged"
rm -- "$work/d/disk0.img"
check "one missing, one of another length" 1 $'disk0 26 Unreadable\ndisk1 25 WrongHeader' "dlm: 26 Unreadable disk0"

# old DISK: an image of the layout before this one in its place: version 1, three disks, 16 slots, cluster 7, and rows of 1,024 bytes.
old() {
    printf '%b' "\\0245\\0001\\000$1\\0003\\0000\\0000\\0000\\0020\\0000\\0000\\0000\\0000\\0000\\0000\\0000\\0007" >"$work/d/disk$1.img"
    truncate -s 18432 -- "$work/d/disk$1.img"
}

# Beside images of this layout it is a disk that fails. Where no image is of this layout every command is refused, and nothing is written.
fresh
old 1
check "one of the old layout" 1 "disk1 32 OldLayout" "dlm: 32 OldLayout disk1"
expect "table beside one of the old layout" 0 "$held" "" "$program" table "$work/d" 1
old 0
old 2
check "the old layout" 1 "" "dlm: 32 OldLayout disk0"
before=$(sha256sum -- "$work"/d/*)
expect "table of the old layout" 1 "" "dlm: 32 OldLayout disk0" "$program" table "$work/d" 1
expect "marks of the old layout" 1 "" "dlm: 32 OldLayout disk0" "$program" mark "$work/d" 1
expect "submission to the old layout" 1 "" "dlm: 32 OldLayout disk0" "$program" submit "$work/d" 1 status 1 1 1
expect "format over the old layout" 1 "" "dlm: 29 AlreadyThere" "$program" format "$work/d" 3 16 7
[[ $before == "$(sha256sum -- "$work"/d/*)" ]] || { echo "the old layout: a file changed"; failed=$((failed + 1)); }

# It is refused so only where it passes all checks of that layout.
poke 0 16 001
check "the old layout, not right" 1 "" "dlm: 25 WrongHeader disk0"
old 0
truncate -s 73728 -- "$work/d/disk0.img"
check "the old layout, of another length" 1 "" "dlm: 25 WrongHeader disk0"
old 0
poke 0 0 000
check "the old layout, not formatted" 1 "" "dlm: 24 NotFormatted disk0"
rm -- "$work/d/disk0.img"
check "the old layout, the first missing" 1 "" "dlm: 26 Unreadable disk0"

# An image beyond the set is not looked at.
fresh
: >"$work/d/disk3.img"
check "beyond the set" 0 "sound" ""

# Images that may only be read are checked, by somebody who may not write them.
fresh
cp -- "$program" "$work/dlm"
chmod 755 -- "$work" "$work/d"
chmod 444 -- "$work"/d/*.img
as_nobody() {
    if [[ $(id -u) -eq 0 ]]; then
        setpriv --reuid=65534 --regid=65534 --clear-groups "$@"
    else
        "$@"
    fi
}
expect "read only" 0 "sound" "" as_nobody "$work/dlm" check "$work/d"

# Of its system calls only those on its streams write.
if command -v strace >/dev/null && strace -o "$work/trace" true 2>/dev/null; then
    strace -f -o "$work/trace" "$program" check "$work/d" >/dev/null
    if grep -E '^([0-9]+ +)?(pwrite|write|fsync|fdatasync|ftruncate|unlink|rename)' "$work/trace" | grep -vE '(^| )write\([12],'; then
        echo "a check writes"
        failed=$((failed + 1))
    fi
fi

[[ $failed -eq 0 ]] && echo "damaged images: $checks runs, each as it should, no byte changed"
exit $((failed > 0))
