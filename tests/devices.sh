#!/usr/bin/env bash
# devices.sh [ROUNDS]: images on block devices. Formats three loop devices, one of them longer than its image, looks at what is refused, and renews a
# log onto them. Then several hosts at once submit over them, killed at random (tests/at_once.py), for so many rounds (none given: 1). It needs root and
# loop devices, and says so where it cannot.
set -uo pipefail

source "$(dirname -- "$(readlink -f -- "${BASH_SOURCE[0]}")")/lib.sh"
need_program
devices=()
finish() {
    local device
    for device in "${devices[@]}"; do
        losetup -d "$device"
    done
    rm -r -- "$work"
}
trap finish EXIT

# add BYTES: one more loop device of this size.
add() {
    local file=$work/behind${#devices[@]} device
    truncate -s "$1" -- "$file"
    device=$(losetup --show -f -- "$file" 2>/dev/null) || {
        echo "left out: devices.sh, block devices: no loop devices, or no root"
        exit 0
    }
    devices+=("$device")
}

# zeros DEVICE..: what stands first on these is forgotten.
zeros() {
    local device
    for device in "$@"; do
        dd if=/dev/zero of="$device" bs=1024 count=1 conv=notrunc,fsync status=none
    done
}

# An image of 16 slots has 73,728 bytes. The second device has room for exactly that, the fourth for less.
add 1M
add 73728
add 256K
add 65536
mkdir -- "$work/d"
for k in 0 1 2; do
    ln -s -- "${devices[k]}" "$work/d/disk$k.img"
done

expect "not formatted yet" 1 "dlm: 24 NotFormatted disk0" "$program" table "$work/d" 0
expect "format" 0 "formatted 3 disks, 16 slots" "$program" format "$work/d" 3 16 7
expect "submit" 0 "ack 0 Granted" "$program" submit "$work/d" 0 enqueue 1 1 1 EX db
held=$'recovered 1\ndb\n  granted 1 1 0 EX'
expect "table" 0 "$held" "$program" table "$work/d" 1
expect "format again" 1 "dlm: 29 AlreadyThere" "$program" format "$work/d" 3 16 7
expect "what was there" 0 "$held" "$program" table "$work/d" 1

# What stands behind an image on its device is not written, and does not matter.
printf 'behind the image' | dd of="${devices[0]}" bs=1 seek=73728 conv=notrunc,fsync status=none
expect "other bytes behind" 0 "$held" "$program" table "$work/d" 2
expect "they stay" 0 "behind the image" dd if="${devices[0]}" bs=1 skip=73728 count=16 status=none

# A device that tells of a longer image than it has room for.
zeros "${devices[1]}"
expect "one of three" 0 "$held" "$program" table "$work/d" 3
printf '\245\002\001\003\000\000\000\021\000\000\000\000\000\000\000\007' | dd of="${devices[1]}" bs=1 conv=notrunc,fsync status=none
expect "no room for what is told" 0 "$held" "$program" table "$work/d" 4

# A device of the layout before this one, which has room for it: beside the others it is a disk that fails, and it is not formatted again.
printf '\245\001\001\003\000\000\000\020\000\000\000\000\000\000\000\007' | dd of="${devices[1]}" bs=1 conv=notrunc,fsync status=none
expect "the old layout" 1 $'disk1 32 OldLayout\ndlm: 32 OldLayout disk1' "$program" check "$work/d"
expect "one of the old layout" 0 "$held" "$program" table "$work/d" 4
zeros "${devices[0]}" "${devices[2]}"
expect "format over the old layout" 1 "dlm: 29 AlreadyThere" "$program" format "$work/d" 3 16 7
zeros "${devices[1]}"
expect "format of all" 0 "formatted 3 disks, 16 slots" "$program" format "$work/d" 3 16 7

# A full log is renewed onto devices, whatever blocks stand there, and not once more.
zeros "${devices[0]}" "${devices[1]}" "${devices[2]}"
mkdir -- "$work/old"
expect "a log of four slots" 0 "formatted 1 disks, 4 slots" "$program" format "$work/old" 1 4 5
expect "its command" 0 "ack 0 Granted" "$program" submit "$work/old" 0 enqueue 1 1 1 EX db
expect "filled" 0 "filled 3 slots" "$program" fill "$work/old" 0
expect "renewed" 0 "renewed 2 commands, 3 disks, 16 slots" "$program" renew "$work/old" 1 "$work/d" 3 16 8
expect "renewed again" 1 "dlm: 29 AlreadyThere" "$program" renew "$work/old" 1 "$work/d" 3 16 8
expect "its table" 0 $'recovered 2\ndb\n  granted 1 1 0 EX' "$program" table "$work/d" 1

# One formatted device, or one that is too short, and nothing is made on the others.
zeros "${devices[0]}" "${devices[1]}"
expect "one is formatted" 1 "dlm: 29 AlreadyThere" "$program" format "$work/d" 3 16 7
zeros "${devices[2]}"
ln -sfn -- "${devices[3]}" "$work/d/disk2.img"
expect "one is too short" 1 "dlm: 26 Unreadable disk2" "$program" format "$work/d" 3 16 7
expect "none was made" 1 "dlm: 24 NotFormatted disk0" "$program" table "$work/d" 0
[[ $failed -eq 0 ]] || exit 1

"$tests/at_once.py" --program "$program" --rounds "${1:-1}" --seconds 3 --slots 14 --hosts 4 --devices "${devices[0]},${devices[1]},${devices[2]}" || exit 1
echo "block devices: formatted, refused, cut to their images, nothing lost"
