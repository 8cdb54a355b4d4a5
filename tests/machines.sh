#!/usr/bin/env bash
# machines.sh [SECONDS]: devices that several machines use at once. Each "machine" is a folder with loop devices of its own over the same files, so each has pages
# of its own, like a machine. Formats them, looks at what is refused, and moves a host number from one machine to another. Then hosts of four machines submit and
# are killed (tests/machines.py), hosts that stay open count under a lock (capi/tests/contend_machines.c), and mg-lock runs on two machines, for so many seconds
# each (none given: 4). A read of sectors that another machine writes is looked at (tests/shim/moments_of_sectors.c), and losses of power are tried over files
# (tests/sector_loss.py).
# It needs the library for C, a C compiler, root and loop devices, and says so where it cannot. The variable BUILT of the environment names another folder with
# dlm-shared, libmidgegalena.a and, perhaps, mg-lock.
set -uo pipefail

source "$(dirname -- "$(readlink -f -- "${BASH_SOURCE[0]}")")/lib.sh"
export PYTHONDONTWRITEBYTECODE=1
seconds=${1:-4}
built=${BUILT:-$top/capi/out}
if ! command -v cc > /dev/null; then
    echo "left out: machines.sh, several machines on one device: no C compiler (cc)"
    exit 0
fi
if [[ -z ${BUILT-} ]] && ! "$top/capi/build.sh" > "$work/told" 2>&1; then
    cat -- "$work/told"
    exit 1
fi
shared=$built/dlm-shared
flags=(-Wall -Wextra -Werror -O2 -I "$top/capi/include")
cc -std=c99 -pedantic "${flags[@]}" "$top/capi/tests/contend_machines.c" "$built/libmidgegalena.a" -o "$work/contend_machines" || fail "contend_machines.c"
cc -std=c99 -pedantic -D_DEFAULT_SOURCE "${flags[@]}" "$top/capi/tests/shared_epochs.c" "$built/libmidgegalena.a" -o "$work/shared_epochs" || fail "shared_epochs.c"
cc -std=c99 -pedantic -D_DEFAULT_SOURCE "${flags[@]}" -Wl,--wrap=pread,--wrap=pwrite,--wrap=fdatasync "$top/capi/tests/devices.c" \
    "$top/capi/out/devices.o" -o "$work/devices" || fail "devices.c"
cc -std=c99 -pedantic -D_DEFAULT_SOURCE "${flags[@]}" -Wl,--wrap=open,--wrap=pread,--wrap=pwrite,--wrap=fdatasync,--wrap=fsync "$top/capi/tests/formats.c" \
    "$built/libmidgegalena.a" -o "$work/formats" || fail "formats.c"
mount_of=(-std=gnu11 "${flags[@]}" -I "$top/capi/src" "$top/capi/examples/dlm-mount/dlm-mount.c" "$top/capi/out/devices.o")
cc "${mount_of[@]}" -o "$work/dlm-mount" || fail "dlm-mount.c"
cc "${mount_of[@]}" -Wl,--wrap=open,--wrap=pread,--wrap=pwrite,--wrap=fdatasync "$tests/shim/gone.c" -o "$work/dlm-mount-gone" || fail "gone.c"
cc -std=gnu11 "${flags[@]}" -pthread "$tests/shim/moments_of_sectors.c" -o "$work/moments" || fail "moments_of_sectors.c"
[[ $failed -eq 0 ]] || exit 1

# Losses of power need no device.
"$tests/sector_loss.py" --program "$shared" --seconds "$seconds" || failed=1

devices=()
finish() {
    local device
    for device in "$work"/{shown,mounted}; do
        ! mountpoint -q "$device" || umount "$device"
    done
    # One that may only be read would stay so for whoever has it next.
    for device in "${devices[@]}"; do
        blockdev --setrw "$device"
        losetup -d "$device"
    done
    rm -r -- "$work"
}
trap finish EXIT
trap 'exit 1' INT TERM

# add FILE [WORD..]: one more loop device over this file.
add() {
    local file=$1
    shift
    device=$(losetup --show -f "$@" -- "$file" 2>/dev/null) || {
        echo "left out: machines.sh, several machines on one device: no loop devices, or no root"
        exit "$failed"
    }
    devices+=("$device")
}

# Three machines on three files. 16 slots and sectors of 4,096 bytes for four hosts take 282,624 bytes; the first file is no longer.
truncate -s 282624 -- "$work/storage0"
truncate -s 1M -- "$work/storage1" "$work/storage2"
for machine in a b c; do
    mkdir -- "$work/$machine"
    for k in 0 1 2; do
        add "$work/storage$k"
        ln -s -- "$device" "$work/$machine/disk$k.img"
    done
    printf '%032x\n' "0x$machine" > "$work/$machine/machine-id"
done
name_of_a=$(< "$work/a/machine-id")
name_of_b=$(< "$work/b/machine-id")

"$work/devices" "$work/a/disk"{1,2}.img "$work/a/disk0.img" || fail "devices.c over loop devices"
for k in 0 1 2; do
    dd if=/dev/zero of="$work/a/disk$k.img" bs=4096 count=1 conv=fsync oflag=direct status=none
done
expect "not formatted" 1 "dlm: 24 NotFormatted disk0" "$shared" table "$work/a" 0
expect "too many slots for the device" 1 "dlm: 26 Unreadable disk0 (disk0.img has 282624 bytes, and 299008 are needed)" "$shared" format "$work/a" 3 17 7 4
expect "none was made" 1 "dlm: 24 NotFormatted disk0" "$shared" table "$work/b" 0
expect "no such sector" 2 "dlm-shared: SECTOR is 4095: 512, 1024, 2048 or 4096" "$shared" format "$work/a" 3 16 7 4 4095
expect "no such host" 2 "dlm-shared: HOSTS is 17: 1 to 16" "$shared" format "$work/a" 3 16 7 17
expect "no disks" 2 "dlm-shared: DISKS is 0: 1 to 7" "$shared" format "$work/a" 0 16 7 4
expect "a number that wraps" 2 "dlm-shared: DISKS is 18446744073709551619: 1 to 7" "$shared" format "$work/a" 18446744073709551619 16 7 4
expect "a further image" 1 "dlm: 29 AlreadyThere disk2 (something has the name disk2.img, and 2 disks are asked for)" "$shared" format "$work/a" 2 16 7 4
expect "format" 0 "formatted 3 disks, 16 slots" "$shared" format "$work/a" 3 16 7 4
expect "format again, on another machine" 1 "dlm: 29 AlreadyThere disk0 (disk0.img is formatted)" "$shared" format "$work/b" 3 16 7 4
expect "in other words" 1 "dlm: 29 AlreadyThere disk0 (disk0.img is formatted)" "$shared" format "$work/b" 3 16 8 4
expect "submit on one machine" 0 "ack 0 Granted" "$shared" submit "$work/a" 0 enqueue 1 1 1 EX db
held=$'recovered 1\ndb\n  granted 1 1 0 EX'
expect "table on another" 0 "$held" "$shared" table "$work/b" 1
expect "submit there" 0 "ack 1 Queued" "$shared" submit "$work/b" 1 enqueue 2 1 2 PR db
expect "release" 0 "ack 2 Released" "$shared" submit "$work/a" 0 release 1 2 1 value 000102030405060708090a0b0c0d0e0f
expect "state" 0 "ack 3 State(held=PR, wanted=-, value=000102030405060708090a0b0c0d0e0f)" "$shared" submit "$work/b" 1 status 2 2 2
expect "refused by the table" 0 "ack 4 12 NoSuchLock" "$shared" submit "$work/a" 0 cancel 1 3 9
expect "mark" 0 $'recovered 5\nmarked 0 slots' "$shared" mark "$work/b" 1
expect "no command" 2 "dlm-shared: MODE is XX: NL, CR, CW, PR, PW or EX" "$shared" submit "$work/a" 0 enqueue 1 4 1 XX db
expect "no words" 2 "dlm-shared: COMMAND is missing: enqueue, convert, release, cancel, status, purge or forget" "$shared" submit "$work/a" 0
expect "no such host number" 2 "dlm-shared: disk0.img has host numbers from 0 to 3, and 4 was given" "$shared" table "$work/a" 4
expect "no such number to take" 2 "dlm-shared: disk0.img has host numbers from 0 to 3, and 4 was given" "$shared" take "$work/a" 4
for task in fill renew migrate replace; do
    "$shared" "$task" "$work/a" 0 > "$work/told" 2>&1
    [[ $? -eq 2 ]] && grep -q "^dlm-shared: $task: " "$work/told" || fail "$task is not declined"
done

# A host number belongs to one machine.
expect "another machine's number" 1 "dlm: 36 HostInUse host0 $name_of_a" "$shared" table "$work/b" 0
expect "take it" 0 "host0 $name_of_b" "$shared" take "$work/b" 0
expect "its first machine" 1 "dlm: 36 HostInUse host0 $name_of_b" "$shared" table "$work/a" 0
expect "a process of the same machine" 1 "dlm: 36 HostInUse host1" flock "$work/b/host1.lock" "$shared" table "$work/b" 1

# Longer sectors than those that were asked for.
truncate -s 1M -- "$work/storage3"
mkdir -- "$work/long"
add "$work/storage3" --sector-size 4096
ln -s -- "$device" "$work/long/disk0.img"
expect "longer sectors" 2 "dlm-shared: format: disk0.img has sectors of 4096 bytes, and 512 were asked for" "$shared" format "$work/long" 1 4 7 4 512
expect "as long" 0 "formatted 1 disks, 4 slots" "$shared" format "$work/long" 1 4 7 4
expect "their command" 0 "ack 0 Granted" "$shared" submit "$work/long" 0 enqueue 1 1 1 NL db

# What a format refuses: each by the disk and the cause, and nothing is written.
mkdir -- "$work/set" "$work/mounted" "$work/calls"
truncate -s 1M -- "$work/place"{0,1,2,3}
for k in 0 1 2; do
    add "$work/place$k"
    places[k]=$device
done
# leads DEVICE..: disk0.img, disk1.img and so on are links to these.
leads() {
    local k=0 device
    rm -f -- "$work/set"/disk?.img
    for device; do ln -s -- "$device" "$work/set/disk$((k++)).img"; done
}
# declines NAME STATUS TEXT [WORD..]: a format is refused so, and no place has a header.
declines() {
    local name=$1 status=$2 text=$3
    shift 3
    expect "$name" "$status" "$text" "$shared" format "$work/set" "$@"
    ! head -qc 2 "$work/place"{0,1,2} | tr -d '\0' | grep -q . || fail "$name: a place was written"
}
leads "${places[0]}" "${places[1]}" "${places[0]}"
declines "two names of one device" 2 "dlm-shared: format: disk2.img is the same device as disk0.img" 3 4 71 4
add "$work/place1"
leads "${places[0]}" "${places[1]}" "$device"
declines "two loop devices over one file" 2 "dlm-shared: format: disk2.img is the same device as disk1.img" 3 4 71 4
leads "${places[0]}" "${places[1]}"
declines "a forgotten link" 1 "dlm: 26 Unreadable disk2 (disk2.img is not there: a link to a block device is wanted, unless files are asked for)" 3 4 71 4
leads "${places[0]}" "${places[1]}" /nowhere
declines "a link to nowhere" 1 "dlm: 26 Unreadable disk2 (disk2.img is a link that leads nowhere)" 3 4 71 4
leads "${places[0]}" "${places[1]}" /dev/null
declines "no block device" 1 "dlm: 26 Unreadable disk2 (disk2.img is no block device)" 3 4 71 4 4096 files
leads "${places[0]}" "${places[1]}" /dev
declines "a folder" 1 "dlm: 26 Unreadable disk2 (disk2.img is a folder, and no block device)" 3 4 71 4
leads "${places[@]}"
blockdev --setro "${places[2]}"
declines "a device that is read only" 1 "dlm: 26 Unreadable disk2 (disk2.img is read only)" 3 4 71 4
blockdev --setrw "${places[2]}"
add "$work/place2" --offset 512
leads "${places[0]}" "${places[1]}" "$device"
declines "a loop device that begins elsewhere" 2 "dlm-shared: format: disk2.img begins 512 bytes into what it is a part of, which is no multiple of 4096" 3 4 71 4
if addpart "${places[2]}" 1 63 1000 2> "$work/told" && [[ -b ${places[2]}p1 ]]; then
    leads "${places[0]}" "${places[1]}" "${places[2]}p1"
    declines "a partition that begins elsewhere" 2 "dlm-shared: format: disk2.img begins 32256 bytes into what it is a part of, which is no multiple of 4096" 3 4 71 4
    leads "${places[2]}p1" "${places[1]}" "${places[2]}"
    declines "a disk and its partition" 1 "dlm: 26 Unreadable disk2 (disk2.img is in use on this machine: by a mount, as swap, or as a part of something)" 3 4 71 4 512
    delpart "${places[2]}" 1
else
    echo "left out: machines.sh, partitions: none can be made"
fi
if command -v mkfs.ext4 > /dev/null && mkfs.ext4 -q -O ^has_journal "$work/place3" && add "$work/place3" && mount "$device" "$work/mounted" 2> "$work/told"; then
    echo kept > "$work/mounted/file"
    leads "${places[0]}" "${places[1]}" "$device"
    declines "a device with a mounted file system" 1 "dlm: 26 Unreadable disk2 (disk2.img is in use on this machine: by a mount, as swap, or as a part of something)" 3 4 71 4
    umount "$work/mounted" && mount "$device" "$work/mounted" && expect "what was in it" 0 kept cat "$work/mounted/file"
    umount "$work/mounted"
else
    echo "left out: machines.sh, mounted devices: no mkfs.ext4, or nothing may be mounted"
fi
leads "${places[0]}" "${places[1]}"
expect "a file where it is asked for" 0 "formatted 3 disks, 4 slots" "$shared" format "$work/set" 3 4 71 4 4096 files
# Each call of a format fails in turn.
for how in alone shared; do
    expect "formats.c $how" 0 "formats: as it should be" "$work/formats" "$how" "$work/calls" "${places[@]}"
    rm -f -- "$work/calls"/*
done

# Disks that may only be read.
leads "${places[@]}"
rm -f -- "$work/calls"/*
blockdev --setro "${places[@]}"
why="disk0.img is read only; disk1.img is read only; disk2.img is read only"
expect "read only" 1 "dlm: 7 NoMajority (half of the devices or fewer tell whose host number 0 is; $why)" "$shared" table "$work/set" 0
if [[ -x $built/mg-lock ]]; then
    shows=$'disks: 3 of 3 answer, and no majority may be written\n  disk0 is read only\n  disk1 is read only\n  disk2 is read only\n'
    shows+="  for several machines: host numbers 0 to 3, sectors of 4096 bytes"
    expect "--status of disks that may only be read" 0 "$shows" bash -c '"$1" --status "$2" | sed -n 3,7p' _ "$built/mg-lock" "$work/set"
fi
blockdev --setrw "${places[@]}"
# mg-lock says the causes, too.
nameless="this machine has no name: the folder's machine-id has something else, and 32 digits of 0 to 9 and a to f are wanted, not all of them 0"
if [[ -x $built/mg-lock ]]; then
    expect "mg-lock under no such number" 125 "mg-lock: disk0.img has host numbers from 0 to 3, and 4 was given" "$built/mg-lock" "$work/set" 4 db true
    echo 0000 > "$work/set/machine-id"
    expect "mg-lock on a machine without a name" 125 "mg-lock: 37 NoLock ($nameless)" "$built/mg-lock" "$work/set" 0 db true
    rm -- "$work/set/machine-id"
fi
leads "${places[1]}" "${places[0]}" "${places[2]}"
why="half of the devices or fewer tell whose host number 0 is; disk0.img is formatted as disk 1; disk1.img is formatted as disk 0"
expect "two links exchanged" 1 "dlm: 7 NoMajority ($why)" "$shared" table "$work/set" 0

# The program dlm refuses such devices with what it has, and checks copies. Over dlm-mount it works on them.
mkdir -- "$work/copy" "$work/shown" "$work/none"
expect "export" 0 "exported 3 images" "$shared" export "$work/c" "$work/copy"
# Images of layout 2 are not for several machines, be they files or devices.
plain="dlm: 25 WrongHeader disk0 (an image for the processes of one machine alone: dlm and mg-lock work on it)"
# declines_layout_2 FOLDER: each word refuses it, and nothing is made there.
declines_layout_2() {
    expect "submit over $1" 1 "$plain" "$shared" submit "$1" 0 enqueue 1 1 1 EX db
    expect "table over $1" 1 "$plain" "$shared" table "$1" 0
    expect "mark over $1" 1 "$plain" "$shared" mark "$1" 0
    expect "take over $1" 1 "$plain" "$shared" take "$1" 0
    expect "check over $1" 1 "$plain" "$shared" check "$1"
    expect "export over $1" 1 "$plain" "$shared" export "$1" "$work/none"
    ! ls "$1" | grep -qv '^disk.\.img$' || fail "something was made in $1"
}
declines_layout_2 "$work/copy"
if [[ -x $program ]]; then
    expect "dlm format" 1 "dlm: 29 AlreadyThere" "$program" format "$work/c" 3 16 7
    expect "dlm table" 1 "dlm: 25 WrongHeader disk0" "$program" table "$work/c" 0
    expect "dlm submit" 1 "dlm: 25 WrongHeader disk0" "$program" submit "$work/c" 0 enqueue 1 9 9 NL db
    expect "dlm check" 1 "dlm: 25 WrongHeader disk0" "$program" check "$work/c"
    expect "dlm fill" 1 "dlm: 25 WrongHeader disk0" "$program" fill "$work/c" 0
    expect "dlm renew" 1 "dlm: 25 WrongHeader disk0" "$program" renew "$work/c" 0 "$work/none" 3 16 8
    expect "dlm check of the copy" 0 sound "$program" check "$work/copy"
    expect "dlm table of the copy" 0 "$("$shared" table "$work/b" 1)" "$program" table "$work/copy" 1
    expect "check" 0 sound env PATH="$(dirname -- "$program"):$PATH" "$shared" check "$work/c"
    for k in 0 1 2; do dd if=/dev/zero of="${places[k]}" bs=4096 count=1 conv=fsync oflag=direct status=none; done
    leads "${places[@]}"
    rm -f -- "$work/set"/*.lock
    expect "dlm format of devices" 0 "formatted 3 disks, 4 slots" "$program" format "$work/set" 3 4 9
    declines_layout_2 "$work/set"
    if [[ -x $built/mg-lock ]]; then
        expect "mg-lock over them" 0 "" "$built/mg-lock" "$work/set" 0 db true
        expect "what --status says of them" 0 "  block devices for the processes of one machine: where several machines work on them, commands are lost" \
            bash -c '"$1" --status "$2" | sed -n 4p' _ "$built/mg-lock" "$work/set"
    fi
    if [[ -e /dev/fuse ]]; then
        "$work/dlm-mount" "$work/c" "$work/shown" &
        for _ in $(seq 2400); do [[ -e $work/shown/disk0.img ]] && break || sleep 0.05; done
        expect "dlm over dlm-mount" 0 "ack 5 Granted(000102030405060708090a0b0c0d0e0f)" "$program" submit "$work/shown" 2 enqueue 3 1 3 NL db
        expect "another machine's number there" 1 "dlm: 37 NoLock host1" "$program" table "$work/shown" 1
        expect "what it did" 0 "recovered 6" bash -c '"$1" table "$2" 1 | head -n 1' _ "$shared" "$work/b"
        umount "$work/shown"
        wait
        # A disk that was not there, and devices that go and come back, which the mount looks for once a second: it works on with them.
        comes() {
            for _ in $(seq 600); do
                [[ $("$program" table "$work/shown" 2 2> /dev/null | head -n 1) != "recovered 6" ]] || break
                sleep 0.2
            done
        }
        mv -- "$work/c/disk1.img" "$work/c/away1"
        mv -- "$work/c/disk2.img" "$work/c/away2"
        GONE=$work/gone "$work/dlm-mount-gone" "$work/c" "$work/shown" &
        for _ in $(seq 2400); do [[ -e $work/shown/disk0.img ]] && break || sleep 0.05; done
        expect "one disk of three" 1 "dlm: 37 NoLock host2" "$program" table "$work/shown" 2
        mv -- "$work/c/away1" "$work/c/disk1.img"
        mv -- "$work/c/away2" "$work/c/disk2.img"
        comes
        expect "disks that came" 0 "recovered 6" bash -c '"$1" table "$2" 2 | head -n 1' _ "$program" "$work/shown"
        exec 5< "$work/shown/disk0.img"
        touch -- "$work/gone"
        expect "no disk" 1 "dlm: 37 NoLock host2" "$program" table "$work/shown" 2
        rm -- "$work/gone"
        comes
        expect "disks that came back" 0 "recovered 6" bash -c '"$1" table "$2" 2 | head -n 1' _ "$program" "$work/shown"
        ! dd bs=4096 count=1 status=none <&5 > "$work/told" 2>&1 || fail "a file that was open before reads on"
        exec 5<&-
        umount "$work/shown"
        wait
    fi
else
    echo "left out: machines.sh, dlm over shared devices: the program is not built"
fi

# Hosts that stay open count under a lock, and mg-lock does.
for machine in a b c; do
    for k in 0 1 2; do dd if=/dev/zero of="$work/$machine/disk$k.img" bs=4096 count=1 conv=fsync oflag=direct status=none; done
done
truncate -s 4M -- "$work/storage"{0,1,2}
for device in "${devices[@]:0:9}"; do losetup -c "$device"; done
expect "format for more" 0 "formatted 3 disks, 240 slots" "$shared" format "$work/a" 3 240 8 4
"$work/contend_machines" "$work/counter" 3 20 "$work/a" "$work/b" "$work/c" || fail "hosts that stay open"
if [[ -x $built/mg-lock ]]; then
    echo 0 > "$work/counter"
    for host in 0 1; do
        machine=$([[ $host -eq 0 ]] && echo a || echo b)
        for _ in $(seq 10); do
            "$built/mg-lock" "$work/$machine" "$host" counted -- bash -c 'n=$(<"$1") && sleep 0.01 && echo $((n + 1)) >"$1"' _ "$work/counter"
        done &
    done
    wait
    expect "mg-lock on two machines" 0 20 cat "$work/counter"
    "$built/mg-lock" -w 60 "$work/b" 0 counted true > "$work/told" 2>&1
    [[ $? -eq 125 ]] && grep -q "36 HostInUse (the host number is of machine $name_of_a" "$work/told" || fail "mg-lock under another machine's number: $(< "$work/told")"
    # What OPERATIONS.md says of trying it on one machine.
    mkdir -- "$work/page"
    awk '/^mkdir a b && echo/ { inside = 1 } /^```/ { inside = 0 } inside' "$top/docs/OPERATIONS.md" > "$work/page/words"
    (cd -- "$work/page" && PATH=$built:$PATH bash words) > "$work/told" 2>&1
    mapfile -t made < <(for k in 0 1 2; do losetup -j "$work/page/lun$k" | cut -d : -f 1; done)
    devices+=("${made[@]}")
    [[ ${#made[@]} -eq 6 ]] && grep -qx "now on b" "$work/told" || fail "what OPERATIONS.md says: $(< "$work/told")"
else
    echo "left out: machines.sh, mg-lock: it is not there"
fi

# A log without an end: two machines go through its epochs (EPOCHS: how many), and so do hosts that are killed.
for k in 0 1 2; do dd if=/dev/zero of="$work/a/disk$k.img" bs=4096 count=1 conv=fsync oflag=direct status=none; done
mkdir -- "$work/epochs"
"$work/shared_epochs" "$work/epochs" "${EPOCHS:-2}" "${devices[@]:0:6}" || fail "two machines through epochs"
for k in 0 1 2; do dd if=/dev/zero of="$work/a/disk$k.img" bs=4096 count=1 conv=fsync oflag=direct status=none; done
expect "no room for two areas" 1 "dlm: 26 Unreadable disk0 (disk0.img has 4194304 bytes, and 134483968 are needed)" "$shared" format "$work/a" 3 7
expect "an epoch of other slots" 2 "dlm-shared: HOSTS is 17: 1 to 16" "$shared" format "$work/a" 3 - 7 17
rm -f -- "$work/a"/host*.lock "$work/b"/host*.lock
truncate -s 5M -- "$work/storage"{0,1,2}
for device in "${devices[@]:0:9}"; do losetup -c "$device"; done
expect "format of a log without an end" 0 "formatted 3 disks, 1024 slots an epoch" "$shared" format "$work/a" 3 - 7 4 512
expect "again" 1 "dlm: 29 AlreadyThere disk0 (disk0.img is formatted)" "$shared" format "$work/b" 3 - 8 4 512
expect "its first command" 0 "ack 0 Granted" "$shared" submit "$work/a" 0 enqueue 1 1 1 EX db
expect "its table on another machine" 0 $'recovered 1\ndb\n  granted 1 1 0 EX' "$shared" table "$work/b" 1
expect "another machine's number of it" 1 "dlm: 36 HostInUse host0 $name_of_a" "$shared" table "$work/b" 0
mkdir -- "$work/endless"
expect "its copies" 0 "exported 3 images" "$shared" export "$work/b" "$work/endless"
[[ ! -x $program ]] || expect "dlm table of its copies" 0 $'recovered 1\ndb\n  granted 1 1 0 EX' "$program" table "$work/endless" 3
[[ ! -x $program ]] || expect "dlm over such a device" 1 "dlm: 25 WrongHeader disk0" "$program" table "$work/a" 3
given=(--program "$shared" --loops --commands 600)
[[ ! -x $program ]] || given+=(--dlm "$program")
"$tests/machines_endless.py" "${given[@]}" || failed=1

# Reads beside another machine's writes. The file is not read and written through pages, where its file system can do that.
truncate -s 1M -- "$work/storage4"
add "$work/storage4" --direct-io=on
written=$device
add "$work/storage4" --direct-io=on
"$work/moments" "$written" "$device" 4096 2 || fail "two reads agreed on what never stood there"

given=(--shared "$shared" --seconds "$seconds" --hold --noise)
[[ ! -x $program ]] || given+=(--dlm "$program")
"$tests/machines.py" "${given[@]}" || failed=1
if [[ -x $program && -e /dev/fuse ]]; then
    "$tests/machines.py" "${given[@]}" --kind mount --program "$program" --mount "$work/dlm-mount" || failed=1
fi
[[ $failed -eq 0 ]] || exit 1
echo "machines.sh: several machines on shared devices: formatted, refused, nothing lost"
