#!/usr/bin/env python3
"""program.py: what `dlm` prints, what it tells on standard error, and its status: over folders of images that are formatted, damaged, half
there or in use, for words that are no task, for races, and where its output takes nothing. The bytes of an image are compared too.

What is expected was worked out from docs/FORMAT.md and docs/REFUSALS.md. It prints each difference, and how many there were; the status is
1 where there was one. The program has to be built: `./dlm` does so.
"""
import fcntl
import os
import resource
import shutil
import socket
import subprocess
import sys

from folder_tests import PROGRAM, TOP, ends, prints, refused, run_tests, test, usage, wants


def start(words, **more):
    return subprocess.run([PROGRAM, *words], stdin=subprocess.DEVNULL, stderr=subprocess.PIPE, check=False, text=True, **more)


def put_byte(path, at, byte):
    with open(path, "r+b") as file:
        file.seek(at)
        file.write(bytes([byte]))


def put_slots(image, slots):
    """The image has a header of so many slots, and is as long."""
    put_byte(image, 6, slots >> 8)
    put_byte(image, 7, slots & 255)
    os.truncate(image, ROWS + 4096 * slots)


def put_zeros(path, length):
    with open(path, "wb") as file:
        file.write(bytes(length))


def images(disks, slots):
    prints(f"format . {disks} {slots} 7", f"formatted {disks} disks, {slots} slots\n")


HELD = "recovered 1\ndb\n  granted 1 1 0 EX\n"
# An image of 16 slots: where its rows begin, and where it ends.
ROWS = 8192
LENGTH = 73728


@test
def from_format_to_lost_disks():
    refused("table . 0", "dlm: 26 Unreadable disk0\n")
    # Where one of the files is there nothing is made, and that file stays as it was; nor is anything made where there is no folder.
    refused("format no 3 16 7", "dlm: 26 Unreadable disk0\n")
    put_zeros("disk2.img", 9)
    refused("format . 3 16 7", "dlm: 29 AlreadyThere\n")
    wants("what is there", (os.listdir("."), os.path.getsize("disk2.img")), (["disk2.img"], 9))
    os.rename("disk2.img", "disk3.img")
    # Whoever opened the folder would look at this one, too.
    refused("format . 3 16 7", "dlm: 29 AlreadyThere\n")
    wants("what is there then", os.listdir("."), ["disk3.img"])
    os.remove("disk3.img")
    os.symlink("nowhere", "disk6.img")
    refused("format . 3 16 7", "dlm: 29 AlreadyThere\n")
    os.remove("disk6.img")
    images(3, 16)
    refused("format . 3 16 7", "dlm: 29 AlreadyThere\n")
    prints("submit . 0 enqueue 1 1 1 EX db", "ack 0 Granted\n")
    prints("submit . 3 enqueue 2 1 2 EX db noqueue", "ack 1 16 NotQueued\n")
    prints("table . 15", "recovered 2\ndb\n  granted 1 1 0 EX\n")
    # The same words again are the command that is in the log. Through another host they are another one, and get the reply that is kept.
    prints("submit . 0 enqueue 1 1 1 EX db", "ack 0 Granted\n")
    prints("submit . 3 enqueue 1 1 1 EX db", "ack 2 Granted\n")
    put_zeros("disk1.img", LENGTH)
    prints("table . 2", "recovered 3\ndb\n  granted 1 1 0 EX\n")
    os.remove("disk2.img")
    refused("table . 2", "dlm: 7 NoMajority\n")
    put_zeros("disk0.img", LENGTH)
    refused("table . 2", "dlm: 24 NotFormatted disk0\n")


# Copy 1 of host 0's block of slot 0, marked, and copy 2, once its first command is acknowledged. Zeros follow the command's 48 bytes.
COMMAND = "0100010500020001" "0000000000000001" "0064620000000000" + 24 * "00"
FIRST_BLOCK = bytes.fromhex(
    "a502010100000000" "0000000000000003" "0000000000000001" "0000000000000001" + COMMAND + 48 * "00" +
    "a502010000000000" "0000000000000002" "0000000000000001" "0000000000000001" + COMMAND + 48 * "00")


@test
def bytes_of_an_image():
    images(3, 16)
    prints("submit . 0 enqueue 1 1 1 EX db", "ack 0 Granted\n")
    with open("disk1.img", "rb") as file:
        image = file.read()
    header = bytes.fromhex("a5020103" "00000010" "0000000000000007")
    wants("the image", image, header.ljust(ROWS, b"\0") + FIRST_BLOCK.ljust(LENGTH - ROWS, b"\0"))


# A conversion of lock 1 of client 1, with a value, a purge of host 15, and client 240 forgotten; all through host 15. Then what a renewal writes: lock 258 of client 7, enqueued through
# host 3, holds PR of `db` and wants EX, and the value of `db` is invalid; client 9 purged 256 locks in its request 5, or had a client forgotten.
VALUE = "0102030405060708090a0b0c0d0e0f10"
CONVERT = "020f010003000001" "0000000000000002" + 16 * "00" + VALUE
PURGE = "060f020000000000" "0000000000000003" "0f" + 31 * "00"
FORGET = "0a0f020000000000" "0000000000000004" "f0" + 31 * "00"
CARRIED_LOCK = "0803070306020102" "0000000000000001" "076462" + 13 * "00" + "000102030405060708090a0b0c0d0e0f"
CARRIED_CLIENT = "0900090000000100" "0000000000000005" "16" + 31 * "00"
CARRIED_FORGOTTEN = "0900090000000000" "0000000000000005" "17" + 31 * "00"


@test
def bytes_of_commands():
    images(1, 4)
    for slot, (words, reply, host, command) in enumerate([
        ("0 enqueue 1 1 1 EX db", "Granted", 0, COMMAND),
        (f"15 convert 1 2 1 NL noqueue value {VALUE}", f"Granted({VALUE})", 15, CONVERT),
        ("15 purge 2 3 15", "Purged(0)", 15, PURGE),
        ("15 forget 2 4 240", "Forgotten", 15, FORGET),
    ]):
        prints(f"submit . {words}", f"ack {slot} {reply}\n")
        with open("disk0.img", "rb") as file:
            file.seek(ROWS + 4096 * slot + 256 * host + 32)
            wants(f"the command of slot {slot}", file.read(48).hex(), command)


# What is changed in a command, so that it is none any more: the place of a byte, and what it becomes.
NO_COMMANDS = [
    (COMMAND, [(0, 7), (1, 16), (3, 6), (4, 2), (4, 4), (5, 16), (16, 1), (20, 0x61), (32, 1), (47, 1)]),
    (CONVERT, [(4, 1)]),
    (PURGE, [(16, 16)]),
    (FORGET, [(0, 11), (3, 1), (4, 1), (4, 2), (5, 1), (7, 1), (17, 0x61), (47, 1)]),
    (CARRIED_LOCK, [(3, 6), (4, 0), (4, 4), (5, 0), (16, 8), (19, 1)]),
    (CARRIED_CLIENT, [(3, 1), (4, 1), (16, 0), (16, 7), (16, 24), (17, 0x61), (47, 1)]),
    (CARRIED_FORGOTTEN, [(3, 1), (6, 1), (7, 1), (16, 24)]),
]


@test
def bytes_that_are_no_command():
    """Host 0 voted for them in the only slot: the block is sound, and its value is not learned."""
    images(1, 1)
    with open("disk0.img", "rb") as file:
        first = file.read(ROWS)
    for command, changes in NO_COMMANDS:
        for changed in [None, *changes]:
            vote = bytearray(bytes.fromhex("a502010000000000" "0000000000000001" "0000000000000001" "0000000000000001" + command))
            if changed:
                vote[32 + changed[0]] = changed[1]
            with open("disk0.img", "wb") as file:
                file.write(first + bytes(vote).ljust(4096, b"\0"))
            prints("check .", "sound\n")
            if changed:
                refused("table . 1", "dlm: 10 NotACommand\n")
            else:
                wants(f"with {command}", start(["table", ".", "1"], stdout=subprocess.DEVNULL).returncode, 0)


# What is done to the only image, of four slots, before it is opened, by the checks in their order: where two faults meet, the one that is
# looked for first is told.
WRONG = [
    lambda image: os.truncate(image, 0),
    lambda image: put_zeros(image, 1023),
    lambda image: os.truncate(image, 1023),
    lambda image: put_byte(image, 1, 1),
    lambda image: put_byte(image, 1, 3),
    lambda image: put_byte(image, 2, 1),
    lambda image: put_byte(image, 3, 0),
    lambda image: put_byte(image, 3, 8),
    lambda image: put_byte(image, 4, 1),
    lambda image: put_byte(image, 7, 0),
    lambda image: put_byte(image, 7, 5),
    lambda image: put_byte(image, 16, 1),
    lambda image: put_byte(image, 1023, 1),
    lambda image: os.truncate(image, 24577),
    lambda image: put_slots(image, 4097),
]
UNFORMATTED = [
    lambda image: put_zeros(image, 1024),
    lambda image: put_zeros(image, 24576),
    lambda image: put_byte(image, 0, 0),
    lambda image: put_byte(image, 0, 0xA4),
]


@test
def checks_of_an_image():
    images(1, 4)
    shutil.copy("disk0.img", "whole")
    for faults, told in (WRONG, "dlm: 25 WrongHeader disk0\n"), (UNFORMATTED, "dlm: 24 NotFormatted disk0\n"):
        for damage in faults:
            shutil.copy("whole", "disk0.img")
            damage("disk0.img")
            refused("table . 0", told)
    shutil.copy("whole", "disk0.img")
    put_slots("disk0.img", 4096)
    prints("table . 0", "recovered 0\nempty\n")
    shutil.copy("whole", "disk0.img")
    put_byte("disk0.img", 15, 8)
    # What stands between the header and the heartbeats is not looked at.
    put_byte("disk0.img", 1024, 1)
    put_byte("disk0.img", 4095, 1)
    put_zeros("disk6.img", 9)
    shutil.copy("whole", "disk7.img")
    prints("table . 0", "recovered 0\nempty\n")


def put_old_image(disk):
    """An image of the layout before this one, of three disks with 16 slots, with host 0's block of slot 0 after its first command."""
    header = bytes.fromhex(f"a501{disk:02x}03" "00000010" "0000000000000007")
    block = bytes.fromhex(
        "a501000000000000" "0000000000000001" "0000000000000001" "0000000000000000" + 32 * "00" +
        "a501010000000000" "0000000000000002" "0000000000000001" "0000000000000001" + COMMAND[:64])
    with open(f"disk{disk}.img", "wb") as file:
        file.write(header.ljust(2048, b"\0") + block.ljust(16 * 1024, b"\0"))


@test
def images_of_the_layout_before():
    for disk in range(3):
        put_old_image(disk)
    for text in ("table . 0", "table . 15", "mark . 0", "check .", "submit . 0 enqueue 1 1 1 EX db"):
        refused(text, "dlm: 32 OldLayout disk0\n")
    refused("format . 3 16 7", "dlm: 29 AlreadyThere\n")
    wants("files", sorted(os.listdir(".")), ["disk0.img", "disk1.img", "disk2.img"])
    # Without disk 0 its own fault is told. Beside an image of this layout each of them is a disk that fails.
    os.remove("disk0.img")
    refused("table . 0", "dlm: 26 Unreadable disk0\n")
    os.mkdir("new")
    prints("format new 3 16 7", "formatted 3 disks, 16 slots\n")
    shutil.copy("new/disk0.img", "disk0.img")
    ends("check .", 1, "disk1 32 OldLayout\ndisk2 32 OldLayout\n", "dlm: 32 OldLayout disk1\n")
    refused("table . 0", "dlm: 7 NoMajority\n")


@test
def devices_of_several_machines():
    """Their bytes, in files: each task refuses them, and writes nothing there."""
    bytes_of_disks = {}
    for disk in range(3):
        header = bytes.fromhex(f"a503{disk:02x}03" "00000010" "0000000000000007" "00001000" "01100100")
        bytes_of_disks[f"disk{disk}.img"] = header.ljust(4096, b"\0") + bytes(17 * 16 * 4096)
        with open(f"disk{disk}.img", "wb") as file:
            file.write(bytes_of_disks[f"disk{disk}.img"])
    os.mkdir("new")
    for text in ("table . 0", "mark . 0", "check .", "submit . 0 enqueue 1 1 1 EX db", "fill . 0", "renew . 0 new 3 16 8", "migrate . new 16"):
        refused(text, "dlm: 25 WrongHeader disk0\n")
    refused("format . 3 16 7", "dlm: 29 AlreadyThere\n")
    for name, data in bytes_of_disks.items():
        with open(name, "rb") as file:
            wants(name, file.read() == data, True)
    wants("new images", [name for name in os.listdir("new") if name.endswith(".img")], [])


@test
def pipes_in_place_of_images():
    """Nobody writes into them: whoever opens one to read waits for ever."""
    images(3, 16)
    prints("submit . 0 enqueue 1 1 1 EX db", "ack 0 Granted\n")
    os.remove("disk1.img")
    os.mkfifo("disk1.img")
    ends("check .", 1, "disk1 26 Unreadable\n", "dlm: 26 Unreadable disk1\n")
    prints("table . 1", HELD)
    for disk in (0, 2):
        os.remove(f"disk{disk}.img")
        os.mkfifo(f"disk{disk}.img")
    for text in ("check .", "table . 1", "mark . 1", "fill . 1", "submit . 0 enqueue 2 1 2 EX db", "renew . 1 new 3 16 8", "migrate . new 16"):
        refused(text, "dlm: 26 Unreadable disk0\n")
    refused("format . 3 16 7", "dlm: 29 AlreadyThere\n")


@test
def gates_that_a_format_left_closed():
    """Where it was ended once all images were whole, the same words open the gates."""
    images(3, 16)
    with open("disk0.img", "rb") as file:
        whole = file.read()
    for closed in ([0], [2], [1, 2], [0, 1, 2]):
        for disk in closed:
            put_byte(f"disk{disk}.img", 0, 0x5A)
        # With other numbers they are images that are there.
        for text in ("format . 3 16 8", "format . 3 15 7", "format . 2 16 7"):
            refused(text, "dlm: 29 AlreadyThere\n")
        images(3, 16)
        prints("check .", "sound\n")
        refused("format . 3 16 7", "dlm: 29 AlreadyThere\n")
    with open("disk0.img", "rb") as file:
        wants("the image", file.read(), whole)
    # One that is gone, or too short, is no image that is whole.
    put_byte("disk0.img", 0, 0)
    os.rename("disk2.img", "gone")
    refused("format . 3 16 7", "dlm: 29 AlreadyThere\n")
    put_zeros("disk2.img", LENGTH - 1)
    refused("format . 3 16 7", "dlm: 29 AlreadyThere\n")
    os.rename("gone", "disk2.img")
    # What holds something is opened by nobody: neither its first bytes after the header nor its last.
    for at in (1024, LENGTH - 1):
        put_byte("disk0.img", at, 1)
        refused("format . 3 16 7", "dlm: 29 AlreadyThere\n")
        put_byte("disk0.img", at, 0)
    # Commands that the others hold by then stay.
    prints("submit . 0 enqueue 1 1 1 EX db", "ack 0 Granted\n")
    images(3, 16)
    prints("table . 1", HELD)


@test
def headers_that_disagree():
    images(3, 4)
    os.mkdir("other")
    prints("format other 4 5 8", "formatted 4 disks, 5 slots\n")
    # A disk that the others do not know, another cluster number, and, without disk 0, the next header that is right.
    shutil.copy("other/disk3.img", "disk3.img")
    refused("table . 0", "dlm: 25 WrongHeader disk3\n")
    put_byte("disk1.img", 15, 6)
    refused("table . 0", "dlm: 25 WrongHeader disk1\n")
    os.remove("disk0.img")
    refused("table . 0", "dlm: 25 WrongHeader disk2\n")
    put_byte("disk1.img", 15, 7)
    os.remove("disk3.img")
    prints("table . 0", "recovered 0\nempty\n")
    # An image under another disk's number is none.
    shutil.copy("disk2.img", "disk1.img")
    ends("check .", 1, "disk0 26 Unreadable\ndisk1 25 WrongHeader\n", "dlm: 26 Unreadable disk0\n")


@test
def slots_that_have_no_mark():
    images(3, 16)
    prints("mark . 1", "recovered 0\nmarked 0 slots\n")
    prints("submit . 0 enqueue 1 1 1 EX db", "ack 0 Granted\n")
    prints("submit . 0 release 1 2 1", "ack 1 Released\n")
    prints("mark . 1", "recovered 2\nmarked 0 slots\n")
    # The mark of host 0's block of slot 0 is taken away on each disk, as if its process had died before it. Slot 1 keeps its own.
    for disk in range(3):
        put_byte(f"disk{disk}.img", ROWS + 3, 0)
    prints("mark . 1", "recovered 2\nmarked 1 slots\n")
    prints("mark . 2", "recovered 2\nmarked 0 slots\n")
    prints("table . 3", "recovered 2\nempty\n")
    os.remove("disk0.img")
    os.remove("disk1.img")
    refused("mark . 2", "dlm: 7 NoMajority\n")


@test
def one_process_a_host_number():
    images(1, 4)
    with open("host13.lock", "w", encoding="ascii") as lock:
        fcntl.flock(lock, fcntl.LOCK_EX)
        refused("table . 13", "dlm: 36 HostInUse host13\n")
        refused("submit . 13 enqueue 1 1 1 EX db", "dlm: 36 HostInUse host13\n")
        prints("submit . 2 enqueue 1 1 1 EX db", "ack 0 Granted\n")
    os.symlink("no/such/folder", "host4.lock")
    prints("table . 13", "recovered 1\ndb\n  granted 1 1 2 EX\n")
    refused("table . 4", "dlm: 37 NoLock host4\n")
    # What is wrong with the images is told first.
    os.remove("disk0.img")
    refused("table . 4", "dlm: 26 Unreadable disk0\n")


@test
def words_that_are_no_task():
    wants("no words", start([], stdout=subprocess.PIPE).returncode, 2)
    for text in ("run", "run a b", "RUN a", "help", "-V", "run -h", "run -", "-- run a", "race", "race 0", "race 17", "race 01", "race 1 2"):
        usage(text)
    for text in ("format d 3", "format d 0 16 7", "format d 8 16 7", "format d 3 4097 7", "format d 3 16 18446744073709551616",
                 "format d 03 16 7", "table d 16", "table d 0 0", "mark d 16", "check", "check d 0", "submit d 16 release 1 1 1"):
        usage(text)
    for text in ("renew d 1 e 3 16", "renew d 1 e 3 16 8 256", "renew d 1 e 3 16 8 1 x", "renew d 1 e 3 16 8 01", "renew d 1 e 3 16 8 -1"):
        usage(text)
    for text in ("submit no/such 0", "submit no/such 0 release 1 1", "submit no/such 0 release 1 1 1 "):
        usage(text, "dlm: bad command\n")
    ended = start(["submit", "no/such", "0", "release", "1", "1 1"], stdout=subprocess.PIPE)
    wants("a word with a space", (ended.returncode, ended.stdout, ended.stderr), (2, "", "dlm: bad command\n"))
    refused("submit no/such 0 release 1 1 1", "dlm: 26 Unreadable disk0\n")
    refused("run no/such/script", "dlm: 26 Unreadable\n")
    refused("renew no/such 1 e 3 16 8 0 255 0", "dlm: 26 Unreadable disk0\n")


@test
def a_script_with_epochs_is_run_and_swept():
    with open(f"{TOP}/examples/epochs.out", encoding="ascii") as printed:
        prints(f"run {TOP}/examples/epochs.dlm", printed.read())
    # 27 calls: each is interrupted in four ways, and each of the six that write in three more. No host recovers once the one disk is lost.
    with open("swept.dlm", "w", encoding="ascii") as script:
        script.write("cluster 1 8 epochs\nsubmit 0 8 enqueue 1 1 1 EX db\nstep 0 40\n")
    prints("sweep swept.dlm", f"{4 * 27 + 3 * 6} runs, {2 * (3 * 27 + 3 * 6)} recovered, 0 wrong\n")


def restore():
    for disk in range(3):
        shutil.copy(f"whole{disk}", f"disk{disk}.img")
    prints("check .", "sound\n")


@test
def damaged_images():
    refused("check .", "dlm: 26 Unreadable disk0\n")
    images(3, 16)
    prints("submit . 0 enqueue 1 1 1 EX db", "ack 0 Granted\n")
    prints("check .", "sound\n")
    for disk in range(3):
        shutil.copy(f"disk{disk}.img", f"whole{disk}")
    # An image beyond the set is not looked at.
    put_zeros("disk3.img", LENGTH)

    # A ballot of host 1 in host 0's block, on one disk and then on two.
    put_byte("disk0.img", ROWS + 23, 2)
    ends("check .", 1, "disk0 slot 0 host 0 damaged\n", "dlm: 5 Damaged\n")
    prints("table . 1", HELD)
    put_byte("disk1.img", ROWS + 23, 2)
    refused("table . 1", "dlm: 7 NoMajority\n")
    ends("check .", 1, "disk0 slot 0 host 0 damaged\ndisk1 slot 0 host 0 damaged\n", "dlm: 5 Damaged\n")

    # A value that is no command, on all disks: no block is damaged.
    restore()
    for disk in range(3):
        put_byte(f"disk{disk}.img", ROWS + 32, 7)
    prints("check .", "sound\n")
    refused("table . 1", "dlm: 10 NotACommand\n")

    # A header that disagrees.
    restore()
    put_byte("disk1.img", 3, 5)
    for text in ("check .", "table . 1", "submit . 1 status 1 1 1"):
        refused(text, "dlm: 25 WrongHeader disk1\n")

    # Images that are refused or missing, beside an opened heartbeat gate and damage of the last block; and without these two.
    restore()
    put_byte("disk0.img", 4096 + 5 * 256, 0xA5)
    put_byte("disk0.img", LENGTH - 256, 0xA5)
    put_zeros("disk1.img", LENGTH)
    os.remove("disk2.img")
    missing = "disk1 24 NotFormatted\ndisk2 26 Unreadable\n"
    ends("check .", 1, "disk0 heartbeat host 5 damaged\ndisk0 slot 15 host 15 damaged\n" + missing, "dlm: 5 Damaged\n")
    shutil.copy("whole0", "disk0.img")
    ends("check .", 1, missing, "dlm: 24 NotFormatted disk1\n")


# Copies of host 0 that are sound: a promise of ballot 1, a vote for the command, and a marked one.
COPIES = [bytes.fromhex("a502" + heading + sequence + "0000000000000001" + bal + command) + bytes(48) for heading, sequence, bal, command in [
    ("000000000000", "0000000000000001", "0000000000000000", 48 * "00"),
    ("010000000000", "0000000000000002", "0000000000000001", COMMAND),
    ("010100000000", "0000000000000003", "0000000000000001", COMMAND),
]]
LAST = 1 << 62


def is_sound(copy):
    """Whether an open copy of host 0 may be: by what FORMAT.md says of its bytes, one after the other."""
    sequence, mbal, bal = (int.from_bytes(copy[at:at + 8], "big") for at in (8, 16, 24))
    if copy[1] != 2 or copy[2] > 1 or copy[3] > copy[2] or any(copy[4:8]) or any(copy[80:]):
        return False
    if not 1 <= sequence <= LAST or not 1 <= mbal <= LAST or mbal % 16 != 1:
        return False
    if copy[2] == 0:
        return bal == 0 and not any(copy[32:80])
    return 1 <= bal <= mbal and bal % 16 == 1


@test
def each_byte_of_a_copy():
    """Each byte of a copy but its gate is changed, in a slot of its own; and both copies are open, or one that is not sound is closed."""
    images(1, 4096)
    blocks = []
    for copy in COPIES:
        changed = [copy[:at] + bytes([byte]) + copy[at + 1:] for at in range(1, 128) for byte in (0, 1, 2, 0x11, 0x40, 0x41, 0xFF)]
        blocks += [(other + bytes(128), is_sound(other)) for other in changed]
        blocks += [(copy + other, copy[8:16] != other[8:16]) for other in COPIES]
        blocks += [(b"\x5a" + copy[1:127] + b"\1" + copy, True)]
    with open("disk0.img", "r+b") as file:
        for slot, (block, _) in enumerate(blocks):
            file.seek(ROWS + 4096 * slot)
            file.write(block)
    damaged = [f"disk0 slot {slot} host 0 damaged\n" for slot, (_, sound) in enumerate(blocks) if not sound]
    ends("check .", 1, "".join(damaged), "dlm: 5 Damaged\n")


@test
def copies_of_beats():
    """Each host's heartbeat block gets two copies; and which of these blocks are damaged."""
    images(1, 4)

    def beat(sequence, at=1, byte=2):
        copy = bytearray((b"\xa5\2" + bytes(6) + sequence.to_bytes(8, "big")).ljust(128, b"\0"))
        copy[at] = byte
        return bytes(copy)

    none = bytes(128)
    blocks = [
        (beat(1) + none, True), (none + beat(LAST), True), (beat(1) + beat(2), True), (beat(7) + beat(7), False),
        (beat(0) + none, False), (none + beat(LAST + 1), False), (beat(1, 1, 1) + none, False), (beat(1, 1, 3) + none, False),
        (beat(1, 2, 1) + none, False), (none + beat(1, 7, 1), False), (beat(1, 16, 1) + none, False), (none + beat(1, 127, 1), False),
        (beat(1, 0, 0xA4) + none, True), (beat(1) + b"\xa4" + beat(0, 127, 1)[1:], True), (none + none, True), (beat(1, 64, 255) + beat(2), False),
    ]
    with open("disk0.img", "r+b") as file:
        file.seek(4096)
        file.write(b"".join(block for block, _ in blocks))
    damaged = [f"disk0 heartbeat host {host} damaged\n" for host, (_, sound) in enumerate(blocks) if not sound]
    ends("check .", 1, "".join(damaged), "dlm: 5 Damaged\n")


@test
def races():
    prints("race 1", "host 0 ack 0 Granted\nagree\n")
    # Three lines by rising host, whoever was first, and that they agree.
    ended = start(["race", "3"], stdout=subprocess.PIPE)
    lines = ended.stdout.split("\n")
    wants("race 3", (ended.returncode, ended.stderr, len(lines), lines[3:]), (0, "", 5, ["agree", ""]))
    for host, line in enumerate(lines[:3]):
        wants(f"the line of host {host}", line.startswith(f"host {host} ack "), True)


@test
def each_call_of_a_submission_fails():
    """Whichever of the 51 calls over three disks it is, two disks are left. The answer comes as many calls earlier as that disk would have made after it."""
    for calls in range(51):
        made = calls % 3 + 1 if calls < 9 else (calls - 9) % 7 + 4 if calls < 30 else (calls - 30) % 7 + 11
        with open("script", "w", encoding="ascii") as file:
            file.write("cluster 3 2\nstart 0\nsubmit 0 1 enqueue 1 1 1 EX db\n" + calls * "step 0\n" + "fail 0 a5\nstep 0 51\n")
        prints("run script", f"{1 + 51 - (17 - made)} h0 ack 0 Granted\n")


@test
def output_that_is_cut_at_each_byte():
    """The file that takes it has room for so many bytes. What was printed is there up to that place, and the status says that there was more."""
    with open(f"{TOP}/examples/takeover.out", "rb") as file:
        whole = file.read()
    for room in range(len(whole) + 1):
        with open("out", "wb") as out:
            ended = start(["run", f"{TOP}/examples/takeover.dlm"], stdout=out, restore_signals=False, preexec_fn=lambda: resource.setrlimit(resource.RLIMIT_FSIZE, (room, room)))
        with open("out", "rb") as file:
            wants(f"room for {room} bytes", (ended.returncode, ended.stderr, file.read()), (0 if room == len(whole) else 1, "", whole[:room]))


@test
def a_refusal_is_written_in_one_call():
    """Each write comes as a message of its own. So lines of several processes, which write to one file, are not mixed."""
    for text, told in (("table . 0", "dlm: 26 Unreadable disk0\n"), ("table .", "dlm: usage\n"), ("submit . 0", "dlm: bad command\n"),
                       ("run no/such/script", "dlm: 26 Unreadable\n")):
        ours, theirs = socket.socketpair(socket.AF_UNIX, socket.SOCK_DGRAM)
        with ours, theirs:
            subprocess.run([PROGRAM, *text.split(" ")], stdin=subprocess.DEVNULL, stderr=theirs, check=False)
            ours.setblocking(False)
            wants(f"the first write of `{text}`", ours.recv(4096).decode(), told)


@test
def output_that_takes_nothing():
    with open("script", "w", encoding="ascii") as file:
        file.write("cluster 1 4\nstart 0\nsubmit 0 1 enqueue 1 1 10 EX db\nstep 0 17\n")
    with open("/dev/full", "wb") as full:
        ended = start(["run", "script"], stdout=full)
    wants("a full device", (ended.returncode, ended.stderr), (1, ""))


sys.exit(run_tests(__file__))
